/* No function where a program starts. */
#include "../solana_block.h"
uint64_t start(uint8_t *region) { return region[0]; }
