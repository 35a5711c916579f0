/* Copies, fills and comparisons by the names of C and by clang's own calls; text to the log; the
 * stack and the heap as large as they are. */
#include "../solana_block.h"

typedef struct { uint64_t words[30]; } Large;

static __attribute__((noinline)) void fill(uint8_t *bytes, uint64_t length) {
  for (uint64_t i = 0; i < length; i++) bytes[i] = (uint8_t)(i * 7);
}

static __attribute__((noinline)) uint64_t sum(const Large *large) {
  uint64_t total = 0;
  for (int i = 0; i < 30; i++) total += large->words[i];
  return total;
}

uint64_t entrypoint(uint8_t *region) {
  uint64_t zero = region[7];
  uint8_t *a = take(1000), *b = take(1000);
  fill(a, 1000);
  if (memcpy(b, a, 1000 + zero) != b || memcmp(a, b, 1000 + zero) != 0) return 1;
  b[500] += 3;
  if (memcmp(a, b, 1000 + zero) != -3 || memcmp(b, a, 1000) != 3 || memcmp(a, b, 500) != 0) return 2;
  memmove(a + 1, a, 999);
  if (a[0] != 0 || a[1] != 0 || a[2] != 7 || a[999] != (uint8_t)(998 * 7)) return 3;
  if (memset(a, 300, 10 + zero) != a || a[9] != 44 || a[10] != 63) return 4;

  Large x = {{0}};
  x.words[zero + 3] = 39;
  Large *y = take(sizeof *y);
  *y = x;
  y->words[29] = 3;
  x.words[zero] = 1;
  if (sum(&x) != 40 || sum(y) != 42) return 5;

  char text[] = "the heap";
  text[zero] = 'T';
  sol_log_(text, sizeof text - 1);
  uint8_t *last = (uint8_t *)HEAP + 32767;
  *last = 9;
  uint64_t taken = (uint64_t)take(8) - HEAP;
  return *last == 9 && taken == 8 + 1000 + 1000 + sizeof *y ? SUCCESS : 6;
}
