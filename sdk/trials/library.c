/* The functions of C that clang may call, without the header; and an end that does not return. */
typedef __SIZE_TYPE__ size_t;
typedef unsigned char u8;
void *memcpy(void *to, const void *from, size_t length);
void *memmove(void *to, const void *from, size_t length);
void *memset(void *to, int byte, size_t length);
int memcmp(const void *a, const void *b, size_t length);
__attribute__((noreturn)) void abort(void);

static __attribute__((noinline)) int compared(const u8 *a, const u8 *b, size_t length) { return memcmp(a, b, length); }
static void *(*const COPY)(void *, const void *, size_t) = memcpy;
static __attribute__((noinline, noreturn)) void fail(void) { abort(); }

unsigned long long entrypoint(const u8 *region) {
  size_t one = 1 + region[7];
  u8 *heap = (u8 *)0x300000000;
  if (memset(heap, 0x1ff, 40 * one) != heap || heap[0] != 255 || heap[39] != 255 || heap[40] != 0) return 1;
  if (memcpy(heap + 100, "the quick brown fox", 20 * one) != heap + 100) return 2;
  if (COPY(heap + 200, heap + 100, 20 * one) != heap + 200) return 3;
  if (compared(heap + 100, heap + 200, 20) != 0) return 4;
  heap[205] += 2;
  if (compared(heap + 100, heap + 200, 20) != -2 || compared(heap + 200, heap + 100, 20) != 2) return 5;
  if (memmove(heap + 101, heap + 100, 10 * one) != heap + 101 || heap[101] != 't' || heap[110] != ' ') return 6;
  if (memcpy(heap, heap, 8 * one) != heap) return 7;
  if (region[7] != 0) fail();
  return 0;
}
