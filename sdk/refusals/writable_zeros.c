/* A variable that is zero at the start. */
#include "../solana_block.h"
static uint64_t calls;
uint64_t entrypoint(uint8_t *region) { return calls++ + region[0]; }
