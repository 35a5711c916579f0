/* A mistake for each first byte of the data, to be found with `./bank trace`. Compiled with -g, so that
 * the image's lines are known.
 *
 * Accounts: one to count in, one that pays, the system program. */
#include "../solana_block.h"

#define APART __attribute__((noinline)) static

/* Counts in an account that the transaction only reads. */
APART uint64_t count(Account *tally) {
  tally->data[0] += 1;
  return SUCCESS;
}

/* Moves lamports of an account that does not sign. */
APART uint64_t pay(Account *payer, Account *receiver) {
  transfer(&payer->key, &receiver->key, 1000, 0, 0);
  return SUCCESS;
}

/* Follows links, each the place of the next, up to a 0: one of them leads to itself. */
APART uint64_t follow(const Account *links) {
  uint64_t count = 0;
  for (uint8_t at = links->data[0]; at != 0; at = links->data[at]) count++;
  log_number(count);
  return SUCCESS;
}

uint64_t entrypoint(uint8_t *region) {
  Input input;
  if (!read_input(region, &input) || input.count != 3 || input.length != 1) return 1;
  switch (input.data[0]) {
    case 0: return count(input.accounts[0]);
    case 1: return pay(input.accounts[1], input.accounts[0]);
    default: return follow(input.accounts[0]);
  }
}
