/* The address of a local beyond the stack frame. */
#include "../solana_block.h"
uint64_t entrypoint(uint8_t *region) {
  __asm__ volatile("r2 = r10; r2 += -8000; *(u64 *)(r2 + 0) = r1" ::: "r2");
  return region[0];
}
