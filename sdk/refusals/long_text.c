/* 70,000 instructions, none of which stands in the object. */
#include "../solana_block.h"
__asm__(".section .text.long, \"ax\", @nobits; .zero 560000; .text");
uint64_t entrypoint(uint8_t *region) { return region[0]; }
