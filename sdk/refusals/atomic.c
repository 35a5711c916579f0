/* Threads, which a program does not have. */
#include "../solana_block.h"
uint64_t entrypoint(uint8_t *region) {
  __sync_fetch_and_add((uint64_t *)region, 1);
  return SUCCESS;
}
