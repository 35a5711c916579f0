/* A counter: adds the number in the instruction's data, or 1 where there are none, to the number in an
 * account of this program, and logs the sum. */
#include "../solana_block.h"

enum { NO_ACCOUNT = 1, NOT_MINE, TOO_SHORT, BAD_DATA };

uint64_t entrypoint(uint8_t *region) {
  Input input;
  if (!read_input(region, &input) || input.count != 1) return NO_ACCOUNT;
  Account *tally = input.accounts[0];
  if (!same_key(&tally->owner, input.program)) return NOT_MINE;
  if (tally->length < 8) return TOO_SHORT;
  if (input.length != 0 && input.length != 8) return BAD_DATA;
  Word *sum = (Word *)tally->data;
  *sum += input.length == 0 ? 1 : number_at(input.data);
  log_number(*sum);
  return SUCCESS;
}
