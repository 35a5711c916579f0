/* Structs by pointer, in one another, by value where the compiler takes them apart, with bit fields
 * and unions; lists and buckets on the heap; bytes in both orders. */
#include "../solana_block.h"

typedef struct { int32_t x, y; } Point;
typedef struct { Point from, to; const char *name; } Line;
typedef struct Item { struct Item *next; uint32_t key, value; } Item;
typedef struct { Item *buckets[8]; uint32_t count; } Map;
typedef union { uint64_t whole; uint8_t bytes[8]; uint32_t halves[2]; } Parts;
typedef struct { uint32_t low : 5, middle : 11, high : 16; int8_t sign : 4; } Packed;

static inline __attribute__((always_inline)) Point added(Point a, Point b) { return (Point){a.x + b.x, a.y + b.y}; }
static __attribute__((noinline)) void move(Line *line, const Point *by) {
  line->from = added(line->from, *by);
  line->to = added(line->to, *by);
}
static __attribute__((noinline)) int64_t area(const Line *line) {
  return (int64_t)(line->to.x - line->from.x) * (line->to.y - line->from.y);
}

static __attribute__((noinline)) Item *find(Map *map, uint32_t key) {
  for (Item *item = map->buckets[key % 8]; item != NULL; item = item->next)
    if (item->key == key) return item;
  return NULL;
}

static __attribute__((noinline)) void put(Map *map, uint32_t key, uint32_t value) {
  Item *item = find(map, key);
  if (item == NULL) {
    item = take(sizeof *item);
    *item = (Item){map->buckets[key % 8], key, 0};
    map->buckets[key % 8] = item;
    map->count++;
  }
  item->value = value;
}

uint64_t entrypoint(uint8_t *region) {
  int zero = region[7];
  Line line = {{1, 2 + zero}, {-5, 9}, "edge"};
  Point by = {-100, 1000 + zero};
  move(&line, &by);
  if (line.from.x != -99 || line.from.y != 1002 || line.to.x != -105 || line.to.y != 1009) return 1;
  if (area(&line) != -42 || line.name[zero] != 'e') return 2;

  Map *map = take(sizeof *map);
  for (uint32_t i = 0; i < 50; i++) put(map, i * 7 % 31, i);
  if (map->count != 31 || find(map, 31 + zero) != NULL) return 3;
  if (find(map, 7)->value != 32 || find(map, 0)->value != 31 || find(map, 6)->value != 23) return 4;

  Parts parts = {0x0102030405060708ull + zero};
  if (parts.bytes[0] != 8 || parts.bytes[7] != 1 || parts.halves[1] != 0x01020304) return 5;
  if (__builtin_bswap64(parts.whole) != 0x0807060504030201ull || __builtin_bswap32(parts.halves[0]) != 0x08070605) return 6;
  if (__builtin_bswap16((uint16_t)parts.whole) != 0x0807) return 7;

  Packed packed = {31, 1024 + zero, 65535, -3};
  packed.middle += 5;
  if (packed.low != 31 || packed.middle != 1029 || packed.high != 65535 || packed.sign != -3) return 8;

  Key a = {{1, 2, 3}}, b;
  copy_key(&b, &a);
  if (!same_key(&a, &b)) return 9;
  b.bytes[31] = 1 + zero;
  return same_key(&a, &b) ? 10 : SUCCESS;
}
