/* Tables of constants: of two dimensions, of texts, of structs with pointers to each other and to
 * functions, and a switch of many cases. */
#include "../solana_block.h"

static const int8_t GRID[3][4] = {{1, -2, 3, -4}, {5, -6, 7, -8}, {9, -10, 11, -12}};
static const char *const DAYS[] = {"Monday", "Tuesday", "Wednesday", "Thursday", "Friday", "Saturday", "Sunday"};
static const char LETTERS[4][6] = {"alpha", "beta", "gamma", "delta"};
static const uint16_t SQUARES[8] = {0, 1, 4, 9, 16, 25, 36, 49};

typedef struct Node { uint64_t value; const struct Node *left, *right; } Node;
static const Node LEAVES[4] = {{1, NULL, NULL}, {3, NULL, NULL}, {5, NULL, NULL}, {7, NULL, NULL}};
static const Node INNER[2] = {{2, &LEAVES[0], &LEAVES[1]}, {6, &LEAVES[2], &LEAVES[3]}};
static const Node TREE = {4, &INNER[0], &INNER[1]};

typedef struct { const char *name; uint8_t length; int (*apply)(int, int); const uint16_t *from; } Operation;
static int plus(int a, int b) { return a + b; }
static int minus(int a, int b) { return a - b; }
static int times(int a, int b) { return a * b; }
const Operation OPERATIONS[] = {
    {"plus", 4, plus, &SQUARES[2]}, {"minus", 5, minus, &SQUARES[7]}, {"times", 5, times, SQUARES}};

static uint64_t sum(const Node *node) { return node == NULL ? 0 : sum(node->left) + node->value + sum(node->right); }

static const Node *find(const Node *node, uint64_t value) {
  while (node != NULL && node->value != value) node = value < node->value ? node->left : node->right;
  return node;
}

static uint64_t length_of(const char *text) {
  uint64_t n = 0;
  while (text[n]) n++;
  return n;
}

static uint32_t name_of(uint64_t code) {
  switch (code) {
    case 0: return 17;
    case 1: return 170;
    case 2: return 4;
    case 3: return 99;
    case 4: return 1000000;
    case 5: return 31;
    case 6: return 8;
    case 7: return 12;
    case 8: return 700;
    case 100: return 3;
    case 1000: return 5;
    default: return 0;
  }
}

uint64_t entrypoint(uint8_t *region) {
  uint64_t zero = region[7];
  int total = 0;
  for (uint64_t i = zero; i < 3; i++)
    for (uint64_t j = 0; j < 4; j++) total += GRID[i][j] * (int)(i + 1);
  if (total != -2 - 4 - 6) return 1;
  uint64_t letters = 0;
  for (uint64_t i = zero; i < 7; i++) letters += length_of(DAYS[i]);
  if (letters != 50 || DAYS[zero + 2][3] != 'n') return 2;
  if (length_of(LETTERS[1 + zero]) != 4 || LETTERS[3][zero] != 'd') return 3;
  if (sum(&TREE) != 28 || find(&TREE, 5 + zero) != &LEAVES[2] || find(&TREE, 8 + zero) != NULL) return 4;
  static const int results[3] = {16, 38, 0};
  for (uint64_t i = zero; i < 3; i++) {
    const Operation *operation = &OPERATIONS[i];
    if (operation->apply((int)*operation->from, 11 + (int)(i == 0)) != results[i]) return 5;
    if (length_of(operation->name) != operation->length) return 6;
  }
  uint64_t names = 0;
  for (uint64_t code = zero; code <= 1000; code++) names += name_of(code);
  if (names != 17 + 170 + 4 + 99 + 1000000 + 31 + 8 + 12 + 700 + 3 + 5) return 7;
  sol_log_(DAYS[zero + 6], 6);
  return SUCCESS;
}
