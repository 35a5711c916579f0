/* Compiled for another machine. */
#include "../solana_block.h"
uint64_t entrypoint(uint8_t *region) { return region[0]; }
