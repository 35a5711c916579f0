/* A table that is nowhere. */
#include "../solana_block.h"
extern const uint64_t primes[100];
uint64_t entrypoint(uint8_t *region) { return primes[region[0]]; }
