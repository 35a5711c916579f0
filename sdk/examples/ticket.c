/* A ticket office that says by a number of its own why it refuses. A request is two bytes: the row
 * and the seat. The hall is an account of this program, one bit per seat, 8 seats a row. */
#include "../solana_block.h"

enum { NO_HALL = 6000, NOT_OUR_HALL, BAD_REQUEST, NO_SUCH_ROW, NO_SUCH_SEAT, SEAT_TAKEN };

static const char *const TEXTS[] = {
    "the hall is not listed",
    "the hall is not of this program",
    "a request is a row and a seat",
    "there is no such row",
    "there is no such seat",
    "the seat is taken",
};

static uint64_t length_of(const char *text) {
  uint64_t length = 0;
  while (text[length] != 0) length++;
  return length;
}

static uint64_t refuse(uint64_t why) {
  const char *text = TEXTS[why - NO_HALL];
  sol_log_(text, length_of(text));
  return why;
}

uint64_t entrypoint(uint8_t *region) {
  Input input;
  if (!read_input(region, &input) || input.count < 1) return refuse(NO_HALL);
  Account *hall = input.accounts[0];
  if (!same_key(&hall->owner, input.program)) return refuse(NOT_OUR_HALL);
  if (input.length != 2) return refuse(BAD_REQUEST);
  uint64_t row = input.data[0], seat = input.data[1];
  if (row >= hall->length) return refuse(NO_SUCH_ROW);
  if (seat >= 8) return refuse(NO_SUCH_SEAT);
  if (hall->data[row] >> seat & 1) return refuse(SEAT_TAKEN);
  hall->data[row] |= 1 << seat;
  log_text("sold");
  return SUCCESS;
}
