/* A function that is nowhere. */
#include "../solana_block.h"
void print(const char *text);
uint64_t entrypoint(uint8_t *region) {
  if (region[0] == 0) return SUCCESS;
  print("hello");
  return SUCCESS;
}
