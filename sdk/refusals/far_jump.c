/* goto +1000. */
#include "../solana_block.h"
uint64_t entrypoint(uint8_t *region) {
  __asm__ volatile(".byte 0x05, 0, 0xe8, 0x03, 0, 0, 0, 0");
  return region[0];
}
