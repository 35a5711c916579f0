/* r2 = bswap32 r2, of -mcpu=v4. */
#include "../solana_block.h"
uint64_t entrypoint(uint8_t *region) {
  __asm__ volatile(".byte 0xd7, 0x02, 0, 0, 32, 0, 0, 0");
  return region[0];
}
