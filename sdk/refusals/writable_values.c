/* A variable with a value at the start. */
#include "../solana_block.h"
uint32_t rates[2] = {3, 5};
uint64_t entrypoint(uint8_t *region) { return rates[0] *= region[0]; }
