/* An opcode of no instruction. */
#include "../solana_block.h"
uint64_t entrypoint(uint8_t *region) {
  __asm__ volatile(".byte 0xff, 0, 0, 0, 0, 0, 0, 0");
  return region[0];
}
