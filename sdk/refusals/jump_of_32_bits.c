/* if w1 == 5 goto +0, of -mcpu=v3. */
#include "../solana_block.h"
uint64_t entrypoint(uint8_t *region) {
  __asm__ volatile(".byte 0x16, 0x01, 0, 0, 5, 0, 0, 0");
  return region[0];
}
