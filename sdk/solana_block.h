/* Programs in C for a block: the system calls, the input region, cross-program calls, keys.
 *
 *     #include "solana_block.h"
 *     uint64_t entrypoint(uint8_t *region) { log_text("hello"); return SUCCESS; }
 *
 *     clang -target bpf -mcpu=v1 -O2 -fno-builtin -c hello.c && sdk/image < hello.o > hello.img
 *
 * There is no C library and no variable that can be written: what a program keeps stands in accounts,
 * what it works on in locals (512 bytes by this compiler, 4,096 by the machine) and on the heap.
 * Each instruction takes one compute unit; what a system call takes on top stands above it.
 */
#ifndef SOLANA_BLOCK_H
#define SOLANA_BLOCK_H

#include <stdbool.h>
#include <stddef.h>
#if !defined(__CLANG_STDINT_H) && !defined(_STDINT_H)
#define __CLANG_STDINT_H /* clang's <stdint.h> wants a C library: a later one adds nothing */
typedef __UINT8_TYPE__ uint8_t;
typedef __UINT16_TYPE__ uint16_t;
typedef __UINT32_TYPE__ uint32_t;
typedef __UINT64_TYPE__ uint64_t;
typedef __INT8_TYPE__ int8_t;
typedef __INT16_TYPE__ int16_t;
typedef __INT32_TYPE__ int32_t;
typedef __INT64_TYPE__ int64_t;
typedef __UINTPTR_TYPE__ uintptr_t;
#define UINT32_MAX __UINT32_MAX__
#define UINT64_MAX __UINT64_MAX__
#define INT32_MAX __INT32_MAX__
#define INT64_MAX __INT64_MAX__
#define INT32_MIN (-INT32_MAX - 1)
#define INT64_MIN (-INT64_MAX - 1)
#endif

/* ---- What `entrypoint` returns. 0 is success; 1 to 2^32 - 1 fails with Custom of that number, 2^32
 * with Custom(0), more with InvalidError. A failed transaction leaves only its fee. */
#define SUCCESS 0ull
#define CUSTOM_ZERO 0x100000000ull

/* ---- Keys, and bytes by address and length. */
typedef struct { uint8_t bytes[32]; } Key;
typedef struct { const void *address; uint64_t length; } Bytes;

/* A number of 8 bytes at any address: the machine reads and writes at each. */
typedef uint64_t __attribute__((may_alias)) Word;

static inline bool same_key(const Key *a, const Key *b) {
  const Word *x = (const Word *)a, *y = (const Word *)b;
  return x[0] == y[0] && x[1] == y[1] && x[2] == y[2] && x[3] == y[3];
}

static inline void copy_key(Key *to, const Key *from) {
  Word *x = (Word *)to;
  const Word *y = (const Word *)from;
  x[0] = y[0], x[1] = y[1], x[2] = y[2], x[3] = y[3];
}

/* The key of 32 zero bytes. */
static const Key SYSTEM_PROGRAM = {{0}};

/* ---- The system calls. A refused one ends the program and fails its transaction: AccessViolation
 * where an address is not the program's, UnitsSpent where the cost is not there. L is a length. */

/* 100 units: fails with Abort. */
__attribute__((noreturn)) void abort(void);
/* max(100, L): the line `Program log: ` and the text; BadText where it is not UTF-8. */
void sol_log_(const char *text, uint64_t length);
/* 100: the line `Program log: ` and the five numbers as 0x and digits, joined by `, `. */
void sol_log_64_(uint64_t a, uint64_t b, uint64_t c, uint64_t d, uint64_t e);
/* 100: the line `Program log: ` and the key's 64 digits. */
void sol_log_pubkey(const Key *key);
/* 100: the line `Program consumption: N units remaining`. */
void sol_log_compute_units_(void);
/* 85, and max(10, L/2) for each piece: the SHA-256 of up to 20,000 pieces, else TooManySlices. */
void sol_sha256(const Bytes *pieces, uint64_t count, uint8_t hash[32]);
/* max(10, L/250) for each of these four. Overlap where the ranges of the first meet. */
void sol_memcpy_(void *to, const void *from, uint64_t length);
void sol_memmove_(void *to, const void *from, uint64_t length);
/* The first difference of bytes, a less b, or 0. */
void sol_memcmp_(const void *a, const void *b, uint64_t length, int32_t *result);
void sol_memset_(void *to, uint8_t byte, uint64_t length);
/* 1,500: the key that belongs to the program by up to 16 seeds of up to 32 bytes each. TooManySeeds
 * above 16; the answer is 1 and nothing is written where a seed is longer, else 0. */
uint64_t sol_create_program_address(const Bytes *seeds, uint64_t count, const Key *program, Key *result);
/* 108: the block's slot. */
void sol_get_slot(uint64_t *slot);
/* 116: lamports per byte and year, and the years that make an account exempt: 3,480 and 2. */
void sol_get_rent(uint64_t rent[2]);
/* 100 + L/250: what the caller finds after this call; ReturnTooLong above 1,024 bytes. */
void sol_set_return_data(const void *bytes, uint64_t length);
/* 100 + L/250, L at most what is kept: the length that is kept. Where that is not 0, so many of the
 * bytes as there is room for are written, and the program that kept them. */
uint64_t sol_get_return_data(void *to, uint64_t room, Key *program);
/* 100: 1 in a program that a transaction called, one more in each that a program called. */
uint64_t sol_get_stack_height(void);

/* 1,000 + L/250, L the length of the data, and what the callee takes. */
typedef struct { const Key *key; bool writable, signer; } Meta;
typedef struct { const Key *program; const Meta *metas; uint64_t count; const void *data; uint64_t length; } Instruction;
typedef struct { const Bytes *seeds; uint64_t count; } Signer;
uint64_t sol_invoke_signed_c(const Instruction *call, const void *ignored, uint64_t ignored_too,
                             const Signer *signers, uint64_t count);

/* ---- Log lines: log_text("counted"), log_number(n) in hexadecimal digits. */
#define log_text(text) sol_log_(text, sizeof(text) - 1)
#define log_number(n) sol_log_64_(n, 0, 0, 0, 0)

/* ---- Memory by system calls, under the names of C. Loops that copy want -fno-builtin. */
static inline void *move_bytes(void *to, const void *from, uint64_t length) {
  sol_memmove_(to, from, length);
  return to;
}

static inline void *set_bytes(void *to, int byte, uint64_t length) {
  sol_memset_(to, (uint8_t)byte, length);
  return to;
}

static inline int compare_bytes(const void *a, const void *b, uint64_t length) {
  int32_t result;
  sol_memcmp_(a, b, length, &result);
  return result;
}
#define memcpy move_bytes
#define memmove move_bytes
#define memset set_bytes
#define memcmp compare_bytes

/* The next `length` bytes of the heap, from a multiple of 8 on and zero. They are never given back. The
 * heap has 32,768 bytes, or what the transaction's budget asks for; its first 8 say how much is taken. */
#define HEAP 0x300000000ull
static inline void *take(uint64_t length) {
  Word *taken = (Word *)HEAP;
  uint64_t from = *taken ? *taken : 8;
  *taken = from + ((length + 7) & ~7ull);
  return (void *)(HEAP + from);
}

/* ---- Signed division, towards zero: the machine divides without signs. By 0 it is DivideByZero. */
static inline uint64_t magnitude(int64_t n) { return n < 0 ? 0 - (uint64_t)n : (uint64_t)n; }

static inline int64_t divide_signed(int64_t a, int64_t b) {
  uint64_t quotient = magnitude(a) / magnitude(b);
  return (int64_t)((a < 0) != (b < 0) ? 0 - quotient : quotient);
}

static inline int64_t remainder_signed(int64_t a, int64_t b) {
  uint64_t rest = magnitude(a) % magnitude(b);
  return (int64_t)(a < 0 ? 0 - rest : rest);
}

/* ---- The input region, which `entrypoint` gets: the accounts of the instruction in its order, its
 * data, the program's key. What stands in an account's owner, lamports, length and data when the
 * program returns, or calls another, is what the account then has. A program may change the data of
 * accounts that it owns, take lamports from those, and give lamports to any that is writable. */
typedef struct {
  uint8_t first_listing; /* 255; for an account that was listed before, its first place */
  uint8_t signer, writable, executable;
  uint8_t unused[4];
  Key key;
  Key owner;
  uint64_t lamports;
  uint64_t length; /* may grow by 10,240 bytes */
  uint8_t data[];
} Account;

#ifndef MOST_ACCOUNTS
#define MOST_ACCOUNTS 16
#endif
typedef struct {
  uint64_t count;
  Account *accounts[MOST_ACCOUNTS]; /* one that is listed twice stands here twice */
  const uint8_t *data;
  uint64_t length; /* of the data */
  const Key *program;
} Input;

/* False where more accounts are listed than MOST_ACCOUNTS. To be called before anything is changed. */
static inline bool read_input(const uint8_t *region, Input *input) {
  uint8_t *at = (uint8_t *)region + 8;
  input->count = *(const Word *)region;
  if (input->count > MOST_ACCOUNTS) return false;
  for (uint64_t i = 0; i < input->count; i++) {
    Account *account = (Account *)at;
    if (account->first_listing != 255) {
      input->accounts[i] = input->accounts[account->first_listing];
      at += 8;
    } else {
      input->accounts[i] = account;
      at += sizeof(Account) + ((account->length + 7) & ~7ull) + 10240 + 8;
    }
  }
  input->length = *(Word *)at;
  input->data = at + 8;
  input->program = (const Key *)(at + 8 + input->length);
  return true;
}

/* The number of 8, or of 4, bytes at this place, which may be any. */
static inline uint64_t number_at(const void *place) { return *(const Word *)place; }
static inline uint32_t short_at(const void *place) { return *(const uint32_t __attribute__((may_alias)) *)place; }

/* ---- Cross-program calls. Each account, and the program, must be listed in the caller's own
 * instruction. The callee's failure fails the caller with the same cause. */
static inline void invoke(const Instruction *call) { sol_invoke_signed_c(call, NULL, 0, NULL, 0); }

/* The same, and the key of these seeds and this program signs. */
static inline void invoke_signed(const Instruction *call, const Bytes *seeds, uint64_t count) {
  Signer signer = {seeds, count};
  sol_invoke_signed_c(call, NULL, 0, &signer, 1);
}

/* A transfer by the system program, signed by the key of these seeds; count 0 where `from` signs by itself. */
static inline void transfer(const Key *from, const Key *to, uint64_t lamports, const Bytes *seeds, uint64_t count) {
  struct __attribute__((packed, aligned(4))) { uint32_t tag; uint64_t lamports; } data = {2, lamports};
  Meta metas[2] = {{from, true, true}, {to, true, false}};
  Instruction call = {&SYSTEM_PROGRAM, metas, 2, &data, sizeof data};
  Signer signer = {seeds, count};
  sol_invoke_signed_c(&call, NULL, 0, &signer, count != 0);
}

#endif
