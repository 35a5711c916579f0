/* r2 = be24 r2. */
#include "../solana_block.h"
uint64_t entrypoint(uint8_t *region) {
  __asm__ volatile(".byte 0xdc, 0x02, 0, 0, 24, 0, 0, 0");
  return region[0];
}
