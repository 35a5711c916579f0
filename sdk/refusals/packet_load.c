/* r0 = *(u8 *)skb[12], of socket filters. */
#include "../solana_block.h"
uint64_t entrypoint(uint8_t *region) {
  __asm__ volatile(".byte 0x30, 0, 0, 0, 12, 0, 0, 0");
  return region[0];
}
