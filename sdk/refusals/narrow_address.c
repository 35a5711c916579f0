/* An address in four bytes. */
#include "../solana_block.h"
const char TEXT[] = "hello";
__asm__(".section .rodata.places, \"a\"; .long 7; .long TEXT; .text");
uint64_t entrypoint(uint8_t *region) { return (uint64_t)TEXT[region[0] & 3]; }
