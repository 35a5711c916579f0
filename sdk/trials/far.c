/* An entry that is too far from the first instruction for a jump. */
#include "../solana_block.h"

__asm__(".text; .rept 33000; r0 = r1; .endr; exit");

static const uint64_t VALUES[3] = {5, 6, 7};

__attribute__((noinline)) uint64_t pick(uint64_t i) { return VALUES[i]; }

uint64_t entrypoint(uint8_t *region) { return pick(region[0] % 3) + pick(1) - pick(0) - 6; }
