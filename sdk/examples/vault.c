/* A vault for each owner: a key of this program, derived of the text `vault` and the owner's key, so
 * that nobody but this program signs for it. Anyone pays in by a plain transfer. The owner takes out,
 * up to a limit at a time, by a cross-program call of the system program.
 *
 * Accounts: the vault (writable), its owner (signer), the receiver (writable), the system program.
 * Data: the lamports, 8 bytes. */
#include "../solana_block.h"

enum { BAD_ACCOUNTS = 1, BAD_DATA, NOT_SIGNED, NOT_THE_VAULT, WRONG_AMOUNT };

#define MOST_LAMPORTS 500000000ull

uint64_t entrypoint(uint8_t *region) {
  Input input;
  Key derived;
  if (!read_input(region, &input) || input.count != 4) return BAD_ACCOUNTS;
  if (input.length != 8) return BAD_DATA;
  Account *vault = input.accounts[0], *owner = input.accounts[1], *receiver = input.accounts[2];
  if (!owner->signer) return NOT_SIGNED;

  Bytes seeds[2] = {{"vault", 5}, {&owner->key, sizeof(Key)}};
  sol_create_program_address(seeds, 2, input.program, &derived);
  if (!same_key(&derived, &vault->key)) return NOT_THE_VAULT;

  uint64_t lamports = number_at(input.data);
  if (lamports == 0 || lamports > MOST_LAMPORTS) return WRONG_AMOUNT;
  transfer(&vault->key, &receiver->key, lamports, seeds, 2);
  sol_log_64_(lamports, vault->lamports, 0, 0, 0); /* after the call the region has what is left */
  return SUCCESS;
}
