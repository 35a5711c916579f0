/* As unknown_function.c; in the object the kind of the section of relocations is then set from 9,
 * without addends, to 4, with addends, as another compiler may write it. */
#include "../solana_block.h"
void print(const char *text);
uint64_t entrypoint(uint8_t *region) {
  if (region[0] == 0) return SUCCESS;
  print("hello");
  return SUCCESS;
}
