// Keys that collide in a table that hashes them by SipHash-1-3, for the trial `worst`.
//
//   collide keys COUNT BITS A B      writes COUNT keys whose hashes under the seed A, B agree in their last BITS bits
//   collide grind PLACE FROM TO      reads how many keys, the keys, how many names, the first eight bytes of each,
//                                    and a message; tries the numbers FROM to TO - 1 in eight bytes of the message
//                                    at PLACE, and writes the one by which most keys fall together, and how much
#include <inttypes.h>
#include <stdint.h>
#include <stdio.h>
#include <stdlib.h>
#include <string.h>

static uint64_t turned(uint64_t x, int by) { return x << by | x >> (64 - by); }

static void sip_round(uint64_t v[4]) {
    v[0] += v[1]; v[1] = turned(v[1], 13) ^ v[0]; v[0] = turned(v[0], 32);
    v[2] += v[3]; v[3] = turned(v[3], 16) ^ v[2];
    v[0] += v[3]; v[3] = turned(v[3], 21) ^ v[0];
    v[2] += v[1]; v[1] = turned(v[1], 17) ^ v[2]; v[2] = turned(v[2], 32);
}

// The hash of a key, as the table has it: the two halves of SipHash-1-3, one laid over the other.
static uint32_t hash_of(const uint64_t seed[2], const uint8_t key[32]) {
    uint64_t v[4] = {seed[0] ^ 0x736f6d6570736575, seed[1] ^ 0x646f72616e646f6d,
                     seed[0] ^ 0x6c7967656e657261, seed[1] ^ 0x7465646279746573};
    for (int at = 0; at <= 32; at += 8) {
        uint64_t word = (uint64_t)32 << 56;
        if (at < 32) memcpy(&word, key + at, 8);
        v[3] ^= word;
        sip_round(v);
        v[0] ^= word;
    }
    v[2] ^= 0xff;
    for (int turn = 0; turn < 3; turn++) sip_round(v);
    uint64_t hash = v[0] ^ v[1] ^ v[2] ^ v[3];
    return (uint32_t)(hash ^ hash >> 32);
}

static const uint32_t K[64] = {
    0x428a2f98, 0x71374491, 0xb5c0fbcf, 0xe9b5dba5, 0x3956c25b, 0x59f111f1, 0x923f82a4, 0xab1c5ed5, 0xd807aa98, 0x12835b01, 0x243185be,
    0x550c7dc3, 0x72be5d74, 0x80deb1fe, 0x9bdc06a7, 0xc19bf174, 0xe49b69c1, 0xefbe4786, 0x0fc19dc6, 0x240ca1cc, 0x2de92c6f, 0x4a7484aa,
    0x5cb0a9dc, 0x76f988da, 0x983e5152, 0xa831c66d, 0xb00327c8, 0xbf597fc7, 0xc6e00bf3, 0xd5a79147, 0x06ca6351, 0x14292967, 0x27b70a85,
    0x2e1b2138, 0x4d2c6dfc, 0x53380d13, 0x650a7354, 0x766a0abb, 0x81c2c92e, 0x92722c85, 0xa2bfe8a1, 0xa81a664b, 0xc24b8b70, 0xc76c51a3,
    0xd192e819, 0xd6990624, 0xf40e3585, 0x106aa070, 0x19a4c116, 0x1e376c08, 0x2748774c, 0x34b0bcb5, 0x391c0cb3, 0x4ed8aa4a, 0x5b9cca4f,
    0x682e6ff3, 0x748f82ee, 0x78a5636f, 0x84c87814, 0x8cc70208, 0x90befffa, 0xa4506ceb, 0xbef9a3f7, 0xc67178f2};

static uint32_t right(uint32_t x, int by) { return x >> by | x << (32 - by); }

static void compress(uint32_t state[8], const uint8_t block[64]) {
    uint32_t w[64], s[8];
    for (int i = 0; i < 16; i++) w[i] = (uint32_t)block[4 * i] << 24 | block[4 * i + 1] << 16 | block[4 * i + 2] << 8 | block[4 * i + 3];
    for (int i = 16; i < 64; i++)
        w[i] = w[i - 16] + (right(w[i - 15], 7) ^ right(w[i - 15], 18) ^ w[i - 15] >> 3) + w[i - 7] + (right(w[i - 2], 17) ^ right(w[i - 2], 19) ^ w[i - 2] >> 10);
    memcpy(s, state, 32);
    for (int i = 0; i < 64; i++) {
        uint32_t a = s[7] + (right(s[4], 6) ^ right(s[4], 11) ^ right(s[4], 25)) + ((s[4] & s[5]) ^ (~s[4] & s[6])) + K[i] + w[i];
        uint32_t b = (right(s[0], 2) ^ right(s[0], 13) ^ right(s[0], 22)) + ((s[0] & s[1]) ^ (s[0] & s[2]) ^ (s[1] & s[2]));
        memmove(s + 1, s, 28);
        s[4] += a;
        s[0] = a + b;
    }
    for (int i = 0; i < 8; i++) state[i] += s[i];
}

// The end of a SHA-256 of so many bytes, whose whole blocks were compressed but for the last bytes.
static void finish(const uint32_t begun[8], const uint8_t *bytes, size_t left, size_t total, uint8_t sum[32]) {
    uint32_t state[8];
    uint8_t last[64];
    memcpy(state, begun, 32);
    for (; left >= 64; bytes += 64, left -= 64) compress(state, bytes);
    memset(last, 0, 64);
    memcpy(last, bytes, left);
    last[left] = 0x80;
    if (left >= 56) {
        compress(state, last);
        memset(last, 0, 64);
    }
    for (int i = 0; i < 8; i++) last[63 - i] = (uint8_t)((uint64_t)total * 8 >> 8 * i);
    compress(state, last);
    for (int i = 0; i < 32; i++) sum[i] = (uint8_t)(state[i / 4] >> (24 - 8 * (i % 4)));
}

static const uint32_t FIRST[8] = {0x6a09e667, 0xbb67ae85, 0x3c6ef372, 0xa54ff53a, 0x510e527f, 0x9b05688c, 0x1f83d9ab, 0x5be0cd19};

// So many bytes, with room for eight more.
static uint8_t *read_all(size_t count) {
    uint8_t *bytes = malloc(count + 8);
    if (!bytes || fread(bytes, 1, count, stdin) != count) exit(2);
    return bytes;
}

static uint32_t read_number(void) {
    uint32_t number;
    if (fread(&number, 4, 1, stdin) != 1) exit(2);
    return number;
}

static int keys(uint32_t count, int bits, const uint64_t seed[2]) {
    uint8_t key[32] = {0x61};
    for (uint64_t number = 0; count; number++) {
        memcpy(key + 1, &number, 8);
        if (hash_of(seed, key) & ((1u << bits) - 1)) continue;
        fwrite(key, 1, 32, stdout);
        count--;
    }
    return 0;
}

static int grind(size_t place, uint64_t from, uint64_t to) {
    size_t count = read_number();
    uint8_t *all = read_all(32 * count);
    size_t names = read_number();
    uint8_t *fronts = read_all(8 * names);
    size_t length = read_number();
    uint8_t *message = read_all(length);
    size_t groups = 1, whole = 8 * names / 64 * 64;
    while (groups * 9 < count) groups *= 2;
    uint32_t *loads = malloc(4 * groups), begun[8];
    memcpy(begun, FIRST, 32);
    for (size_t at = 0; at < whole; at += 64) compress(begun, fronts + at);
    uint64_t best = 0, most = 0;
    for (uint64_t number = from; number < to; number++) {
        uint8_t sum[32];
        uint64_t seed[2], together = 0;
        memcpy(message + place, &number, 8);
        finish(FIRST, message, length, length, sum);
        memcpy(fronts + 8 * names, sum, 8);
        finish(begun, fronts + whole, 8 * names + 8 - whole, 8 * names + 8, sum);
        memcpy(seed, sum, 16);
        memset(loads, 0, 4 * groups);
        for (size_t i = 0; i < count; i++) together += loads[hash_of(seed, all + 32 * i) & (groups - 1)]++;
        if (together > most) {
            most = together;
            best = number;
        }
    }
    printf("%" PRIu64 " %" PRIu64 "\n", best, most);
    return 0;
}

int main(int count, char **words) {
    if (count == 6 && !strcmp(words[1], "keys")) {
        const uint64_t seed[2] = {strtoull(words[4], NULL, 10), strtoull(words[5], NULL, 10)};
        return keys(atoi(words[2]), atoi(words[3]), seed);
    }
    if (count == 5 && !strcmp(words[1], "grind")) return grind(atoi(words[2]), atoll(words[3]), atoll(words[4]));
    return 2;
}
