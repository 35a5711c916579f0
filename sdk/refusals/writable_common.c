/* A variable that other objects may have too. */
#include "../solana_block.h"
__attribute__((common)) uint64_t total;
uint64_t entrypoint(uint8_t *region) { return total += region[0]; }
