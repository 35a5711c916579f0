/* A pointer to a system call. */
#include "../solana_block.h"
static void (*const SAY[2])(const char *, uint64_t) = {NULL, sol_log_};
uint64_t entrypoint(uint8_t *region) {
  SAY[region[0] & 1]("hello", 5);
  return SUCCESS;
}
