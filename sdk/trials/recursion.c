/* Functions that call themselves and one another, up to 64 frames deep; calls by pointers. */
#include "../solana_block.h"

static __attribute__((noinline)) uint64_t fibonacci(uint64_t n) { return n < 2 ? n : fibonacci(n - 1) + fibonacci(n - 2); }

static __attribute__((noinline)) uint64_t ackermann(uint64_t m, uint64_t n) {
  if (m == 0) return n + 1;
  if (n == 0) return ackermann(m - 1, 1);
  return ackermann(m - 1, ackermann(m, n - 1));
}

static bool odd(uint64_t n);
static __attribute__((noinline)) bool even(uint64_t n) { return n == 0 ? true : odd(n - 1); }
static __attribute__((noinline)) bool odd(uint64_t n) { return n == 0 ? false : even(n - 1); }

/* Its frames keep a local each, so that they must be apart. */
static __attribute__((noinline)) uint64_t sum_down(volatile uint64_t *above, uint64_t n) {
  volatile uint64_t mine = n;
  if (n == 0) return above == NULL ? 0 : *above;
  uint64_t below = sum_down(&mine, n - 1);
  return below + (mine == n ? n : 1000000);
}

static uint64_t moves(int disks, int from, int to, int over) {
  return disks == 0 ? 0 : moves(disks - 1, from, over, to) + 1 + moves(disks - 1, over, to, from);
}

static int queens(uint32_t columns, uint32_t left, uint32_t right, int n) {
  uint32_t all = (1u << n) - 1;
  int count = 0;
  if (columns == all) return 1;
  for (uint32_t free = all & ~(columns | left | right); free != 0; free &= free - 1) {
    uint32_t bit = free & -free;
    count += queens(columns | bit, (left | bit) << 1, (right | bit) >> 1, n);
  }
  return count;
}

typedef uint64_t (*Step)(uint64_t);
static uint64_t twice(uint64_t n) { return n * 2; }
static uint64_t next(uint64_t n) { return n + 1; }
static uint64_t square(uint64_t n) { return n * n; }
static const Step STEPS[] = {twice, next, square};

uint64_t entrypoint(uint8_t *region) {
  uint64_t zero = region[7];
  if (fibonacci(15 + zero) != 610) return 1;
  if (ackermann(2, 3 + zero) != 9) return 2;
  if (!even(24 + zero) || odd(30 + zero)) return 3;
  if (sum_down(NULL, 50 + zero) != 50 * 51 / 2 + 1) return 4;
  if (moves(7, 1, 3, 2) != 127) return 5;
  if (queens(0, 0, 0, 5) != 10) return 6;
  uint64_t n = 3 + zero;
  for (uint64_t i = 0; i < 6; i++) n = STEPS[i % 3](n);
  return n == 9801 ? SUCCESS : 7;
}
