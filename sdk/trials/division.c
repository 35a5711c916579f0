/* Division of 64 bits: long division by shifts against the machine's, greatest common divisors,
 * powers by a modulus, digits, roots, and division with signs. */
#include "../solana_block.h"

static uint64_t by_shifts(uint64_t n, uint64_t d, uint64_t *rest) {
  uint64_t quotient = 0, r = 0;
  for (int bit = 63; bit >= 0; bit--) {
    uint64_t high = r >> 63;
    r = r << 1 | (n >> bit & 1);
    if (high || r >= d) r -= d, quotient |= 1ull << bit;
  }
  *rest = r;
  return quotient;
}

static uint64_t common_divisor(uint64_t a, uint64_t b) {
  while (b != 0) {
    uint64_t rest = a % b;
    a = b, b = rest;
  }
  return a;
}

static uint64_t power(uint64_t base, uint64_t exponent, uint64_t modulus) {
  uint64_t result = 1;
  for (base %= modulus; exponent != 0; exponent >>= 1, base = base * base % modulus)
    if (exponent & 1) result = result * base % modulus;
  return result;
}

static int digits(uint64_t n, char *text) {
  int length = 0;
  char turned[20];
  do turned[length++] = (char)('0' + n % 10);
  while (n /= 10);
  for (int i = 0; i < length; i++) text[i] = turned[length - 1 - i];
  return length;
}

static uint64_t root(uint64_t n) {
  uint64_t x = n, y = 1;
  while (x > y) x = (x + y) / 2, y = n / x;
  return x;
}

uint64_t entrypoint(uint8_t *region) {
  uint64_t state = *(Word *)region + 7, rest;
  for (int i = 0; i < 40; i++) {
    state = state * 6364136223846793005ull + 1442695040888963407ull;
    uint64_t n = state, d = state >> (i + 7) | 1;
    if (by_shifts(n, d, &rest) != n / d || rest != n % d) return 1;
    uint32_t n32 = (uint32_t)state, d32 = (uint32_t)(state >> 40) | 1;
    if (n32 / d32 * d32 + n32 % d32 != n32 || n32 % d32 >= d32) return 2;
  }
  if (common_divisor(600851475143ull * 12, 600851475143ull * 18) != 600851475143ull * 6) return 3;
  if (power(3, 1000000006, 1000000007) != 1) return 4;
  char text[20];
  if (digits(18446744073709551615ull, text) != 20 || memcmp(text, "18446744073709551615", 20) != 0) return 5;
  if (digits(0, text) != 1 || text[0] != '0') return 6;
  if (root(1000000007ull * 1000000007ull) != 1000000007 || root(99) != 9) return 7;
  if (divide_signed(-7, 2) != -3 || remainder_signed(-7, 2) != -1) return 8;
  if (divide_signed(7, -2) != -3 || remainder_signed(7, -2) != 1 || divide_signed(-8, -2) != 4) return 9;
  if (divide_signed(INT64_MIN, 1) != INT64_MIN) return 10;
  return SUCCESS;
}
