/* SHA-256 in C, with its table of constants, against the system call. */
#include "../solana_block.h"

static const uint32_t K[64] = {
    0x428a2f98, 0x71374491, 0xb5c0fbcf, 0xe9b5dba5, 0x3956c25b, 0x59f111f1, 0x923f82a4, 0xab1c5ed5,
    0xd807aa98, 0x12835b01, 0x243185be, 0x550c7dc3, 0x72be5d74, 0x80deb1fe, 0x9bdc06a7, 0xc19bf174,
    0xe49b69c1, 0xefbe4786, 0x0fc19dc6, 0x240ca1cc, 0x2de92c6f, 0x4a7484aa, 0x5cb0a9dc, 0x76f988da,
    0x983e5152, 0xa831c66d, 0xb00327c8, 0xbf597fc7, 0xc6e00bf3, 0xd5a79147, 0x06ca6351, 0x14292967,
    0x27b70a85, 0x2e1b2138, 0x4d2c6dfc, 0x53380d13, 0x650a7354, 0x766a0abb, 0x81c2c92e, 0x92722c85,
    0xa2bfe8a1, 0xa81a664b, 0xc24b8b70, 0xc76c51a3, 0xd192e819, 0xd6990624, 0xf40e3585, 0x106aa070,
    0x19a4c116, 0x1e376c08, 0x2748774c, 0x34b0bcb5, 0x391c0cb3, 0x4ed8aa4a, 0x5b9cca4f, 0x682e6ff3,
    0x748f82ee, 0x78a5636f, 0x84c87814, 0x8cc70208, 0x90befffa, 0xa4506ceb, 0xbef9a3f7, 0xc67178f2,
};

typedef struct {
  uint32_t state[8];
  uint64_t length;
  uint8_t block[64];
} Hasher;

static uint32_t rotate(uint32_t x, int n) { return x >> n | x << (32 - n); }

static void compress(Hasher *h) {
  uint32_t w[64], s[8];
  for (int i = 0; i < 16; i++)
    w[i] = (uint32_t)h->block[4 * i] << 24 | h->block[4 * i + 1] << 16 | h->block[4 * i + 2] << 8 | h->block[4 * i + 3];
  for (int i = 16; i < 64; i++) {
    uint32_t a = rotate(w[i - 15], 7) ^ rotate(w[i - 15], 18) ^ w[i - 15] >> 3;
    uint32_t b = rotate(w[i - 2], 17) ^ rotate(w[i - 2], 19) ^ w[i - 2] >> 10;
    w[i] = w[i - 16] + a + w[i - 7] + b;
  }
  for (int i = 0; i < 8; i++) s[i] = h->state[i];
  for (int i = 0; i < 64; i++) {
    uint32_t a = rotate(s[4], 6) ^ rotate(s[4], 11) ^ rotate(s[4], 25);
    uint32_t b = s[7] + a + ((s[4] & s[5]) ^ (~s[4] & s[6])) + K[i] + w[i];
    uint32_t c = rotate(s[0], 2) ^ rotate(s[0], 13) ^ rotate(s[0], 22);
    uint32_t d = c + ((s[0] & s[1]) ^ (s[0] & s[2]) ^ (s[1] & s[2]));
    s[7] = s[6], s[6] = s[5], s[5] = s[4], s[4] = s[3] + b;
    s[3] = s[2], s[2] = s[1], s[1] = s[0], s[0] = b + d;
  }
  for (int i = 0; i < 8; i++) h->state[i] += s[i];
}

static const Hasher FIRST = {
    {0x6a09e667, 0xbb67ae85, 0x3c6ef372, 0xa54ff53a, 0x510e527f, 0x9b05688c, 0x1f83d9ab, 0x5be0cd19}, 0, {0}};

static void push(Hasher *h, uint8_t byte) {
  h->block[h->length++ % 64] = byte;
  if (h->length % 64 == 0) compress(h);
}

static void finish(Hasher *h, uint8_t hash[32]) {
  uint64_t bits = h->length * 8;
  push(h, 0x80);
  while (h->length % 64 != 56) push(h, 0);
  for (int shift = 56; shift >= 0; shift -= 8) push(h, (uint8_t)(bits >> shift));
  for (unsigned i = 0; i < 32; i++) hash[i] = (uint8_t)(h->state[i / 4] >> (24 - i % 4 * 8));
}

uint64_t entrypoint(uint8_t *region) {
  Hasher *hasher = take(sizeof *hasher);
  uint8_t *mine = take(32), *other = take(32);
  for (uint64_t length = 0; length <= 130; length += 13) {
    *hasher = FIRST;
    for (uint64_t i = 0; i < length; i++) push(hasher, region[i]);
    finish(hasher, mine);
    Bytes piece = {region, length};
    sol_sha256(&piece, 1, other);
    if (!same_key((Key *)mine, (Key *)other)) return 1 + length;
  }
  sol_log_pubkey((Key *)mine);
  return SUCCESS;
}
