/* CRC-32 bit by bit and by a table that is computed, and by a table of constants of 4 bits; Adler-32;
 * FNV-1a. No header: what a program has without it. */
typedef unsigned char u8;
typedef unsigned int u32;
typedef unsigned long long u64;

static const char text[] = "123456789";

static const u32 nibbles[16] = {
    0x00000000, 0x1db71064, 0x3b6e20c8, 0x26d930ac, 0x76dc4190, 0x6b6b51f4, 0x4db26158, 0x5005713c,
    0xedb88320, 0xf00f9344, 0xd6d6a3e8, 0xcb61b38c, 0x9b64c2b0, 0x86d3d2d4, 0xa00ae278, 0xbdbdf21c,
};

static u32 by_bits(const u8 *bytes, u64 length) {
  u32 crc = 0xffffffff;
  for (u64 i = 0; i < length; i++) {
    crc ^= bytes[i];
    for (int bit = 0; bit < 8; bit++) crc = crc >> 1 ^ (crc & 1 ? 0xedb88320 : 0);
  }
  return ~crc;
}

static u32 by_nibbles(const u8 *bytes, u64 length) {
  u32 crc = 0xffffffff;
  for (u64 i = 0; i < length; i++) {
    crc = crc >> 4 ^ nibbles[(crc ^ bytes[i]) & 15];
    crc = crc >> 4 ^ nibbles[(crc ^ bytes[i] >> 4) & 15];
  }
  return ~crc;
}

static u32 by_table(u32 *table, const u8 *bytes, u64 length) {
  for (u32 i = 0; i < 256; i++) {
    table[i] = i;
    for (int bit = 0; bit < 8; bit++) table[i] = table[i] >> 1 ^ (table[i] & 1 ? 0xedb88320 : 0);
  }
  u32 crc = ~0u;
  for (u64 i = 0; i < length; i++) crc = table[(u8)crc ^ bytes[i]] ^ crc >> 8;
  return ~crc;
}

static u32 adler(const u8 *bytes, u64 length) {
  u32 a = 1, b = 0;
  for (u64 i = 0; i < length; i++) a = (a + bytes[i]) % 65521, b = (b + a) % 65521;
  return b << 16 | a;
}

static u64 fnv(const u8 *bytes, u64 length) {
  u64 hash = 0xcbf29ce484222325;
  for (u64 i = 0; i < length; i++) hash = (hash ^ bytes[i]) * 0x100000001b3;
  return hash;
}

u64 entrypoint(const u8 *region) {
  const u8 *bytes = (const u8 *)text;
  u64 length = sizeof text - 1 + region[7];
  if (by_bits(bytes, length) != 0xcbf43926) return 1;
  if (by_nibbles(bytes, length) != 0xcbf43926) return 2;
  if (by_table((u32 *)0x300000000, bytes, length) != 0xcbf43926) return 3;
  if (adler(bytes, length) != 0x091e01de) return 4;
  if (fnv(bytes, 0) != 0xcbf29ce484222325 || fnv((const u8 *)"a", 1) != 0xaf63dc4c8601ec8c) return 5;
  return 0;
}
