/* 11,000,000 bytes of constants, none of which stands in the object. */
#include "../solana_block.h"
__asm__(".section .rodata.long, \"a\", @nobits; .zero 11000000; .text");
uint64_t entrypoint(uint8_t *region) { return region[0]; }
