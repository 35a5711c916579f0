/* A long computation: how many primes lie below the number in the instruction's data, by trial
 * division. It returns the count as bytes, and spends its units where the number is too large. */
#include "../solana_block.h"

enum { BAD_DATA = 1 };

static bool is_prime(uint64_t n) {
  if (n < 2) return false;
  for (uint64_t divisor = 2; divisor * divisor <= n; divisor++)
    if (n % divisor == 0) return false;
  return true;
}

uint64_t entrypoint(uint8_t *region) {
  Input input;
  if (!read_input(region, &input) || input.length != 8) return BAD_DATA;
  uint64_t below = number_at(input.data), count = 0;
  for (uint64_t n = 0; n < below; n++) count += is_prime(n);
  log_number(count);
  sol_set_return_data(&count, sizeof count);
  return SUCCESS;
}
