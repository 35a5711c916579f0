/* An address among the instructions. */
#include "../solana_block.h"
uint64_t entrypoint(uint8_t *region) {
  __asm__ volatile(".quad entrypoint");
  return region[0];
}
