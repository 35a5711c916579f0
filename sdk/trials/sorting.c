/* Sorts: by insertion, quick sort, heap sort, and structs by pointers and a comparing function. */
#include "../solana_block.h"

enum { MANY = 60 };
typedef struct { uint32_t key; uint8_t place; } Row;

static void by_insertion(int64_t *a, int64_t n) {
  for (int64_t i = 1; i < n; i++) {
    int64_t x = a[i], j = i;
    for (; j > 0 && a[j - 1] > x; j--) a[j] = a[j - 1];
    a[j] = x;
  }
}

static void quick_sort(uint32_t *a, int from, int to) {
  if (from >= to) return;
  uint32_t pivot = a[(from + to) >> 1];
  int i = from, j = to;
  while (i <= j) {
    while (a[i] < pivot) i++;
    while (a[j] > pivot) j--;
    if (i <= j) {
      uint32_t kept = a[i];
      a[i++] = a[j];
      a[j--] = kept;
    }
  }
  quick_sort(a, from, j);
  quick_sort(a, i, to);
}

static void sift(uint16_t *a, int root, int n) {
  for (int child; (child = 2 * root + 1) < n; root = child) {
    if (child + 1 < n && a[child + 1] > a[child]) child++;
    if (a[root] >= a[child]) return;
    uint16_t kept = a[root];
    a[root] = a[child], a[child] = kept;
  }
}

static void heap_sort(uint16_t *a, int n) {
  for (int i = n >> 1; i-- > 0;) sift(a, i, n);
  for (int i = n; i-- > 1;) {
    uint16_t kept = a[0];
    a[0] = a[i], a[i] = kept;
    sift(a, 0, i);
  }
}

static int by_key(const Row *a, const Row *b) { return a->key < b->key ? -1 : a->key > b->key; }
static int by_place(const Row *a, const Row *b) { return (int)a->place - (int)b->place; }

static void sort_rows(Row **rows, int n, int (*compare)(const Row *, const Row *)) {
  for (int i = 0; i < n; i++)
    for (int j = i; j > 0 && compare(rows[j - 1], rows[j]) > 0; j--) {
      Row *kept = rows[j];
      rows[j] = rows[j - 1], rows[j - 1] = kept;
    }
}

uint64_t entrypoint(uint8_t *region) {
  uint64_t state = *(Word *)region + 12345;
  int64_t *a = take(MANY * sizeof *a);
  uint32_t *b = take(MANY * sizeof *b);
  uint16_t *c = take(MANY * sizeof *c);
  uint64_t sum = 0, after = 0;
  for (int i = 0; i < MANY; i++) {
    state = state * 6364136223846793005ull + 1442695040888963407ull;
    a[i] = (int64_t)state >> 20, b[i] = (uint32_t)(state >> 33), c[i] = (uint16_t)(state >> 48);
    sum += (uint64_t)a[i] + b[i] + c[i];
  }
  by_insertion(a, MANY);
  quick_sort(b, 0, MANY - 1);
  heap_sort(c, MANY);
  for (int i = 0; i < MANY; i++) {
    if (i > 0 && (a[i - 1] > a[i] || b[i - 1] > b[i] || c[i - 1] > c[i])) return 1;
    after += (uint64_t)a[i] + b[i] + c[i];
  }
  if (sum != after) return 2;
  if (a[0] >= 0 || a[MANY - 1] <= 0) return 3;

  Row rows[6] = {{50, 0}, {7, 1}, {4000000000u, 2}, {7, 3}, {0, 4}, {9, 5}};
  Row *order[6];
  for (int i = 0; i < 6; i++) order[i] = &rows[i];
  sort_rows(order, 6, by_key);
  static const uint8_t places[6] = {4, 1, 3, 5, 0, 2};
  for (int i = 0; i < 6; i++)
    if (order[i]->place != places[i]) return 4;
  sort_rows(order, 6, by_place);
  for (int i = 0; i < 6; i++)
    if (order[i] != &rows[i]) return 5;
  return SUCCESS;
}
