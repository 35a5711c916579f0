/* The SHA-256 of the first account's data, into the first 32 data bytes of the second, which is this
 * program's, and into the returned bytes. */
#include "../solana_block.h"

enum { BAD_ACCOUNTS = 1, NOT_MINE, TOO_SHORT };

uint64_t entrypoint(uint8_t *region) {
  Input input;
  if (!read_input(region, &input) || input.count != 2) return BAD_ACCOUNTS;
  Account *source = input.accounts[0], *target = input.accounts[1];
  if (!same_key(&target->owner, input.program)) return NOT_MINE;
  if (target->length < 32) return TOO_SHORT;

  Bytes piece = {source->data, source->length};
  sol_sha256(&piece, 1, target->data);
  sol_log_pubkey((const Key *)target->data);
  sol_set_return_data(target->data, 32);
  return SUCCESS;
}
