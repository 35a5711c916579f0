/* Three bytes. */
#include "../solana_block.h"
uint64_t entrypoint(uint8_t *region) {
  __asm__ volatile(".byte 1, 2, 3");
  return region[0];
}
