/* CRC-32 with and without a table, CRC-64, Adler-32, Fletcher-32 and FNV-1a.
call crc32_of_digits
call adler32_of_digits
call fill 30000 12345
call crc32 30000
call crc32_by_bits 5000
call crc32 5000
call crc64 4000
call adler32 30000
call fletcher32 30000
call fnv 9999
*/
#include "program.h"

static u8 data[32768];
static u32 table[256];

EXPORT(fill) u32 fill(u32 bytes, u32 seed) {
  u32 sum = 0;
  for (u32 i = 0; i < bytes; i++) sum += data[i] = (u8)(next_random(&seed) >> 24);
  return sum;
}

EXPORT(crc32) u32 crc32(u32 bytes) {
  for (u32 i = 0; i < 256; i++) {
    u32 c = i;
    for (u32 bit = 0; bit < 8; bit++) c = c & 1 ? 0xedb88320u ^ c >> 1 : c >> 1;
    table[i] = c;
  }
  u32 crc = ~0u;
  for (u32 i = 0; i < bytes; i++) crc = table[(crc ^ data[i]) & 255] ^ crc >> 8;
  return ~crc;
}

EXPORT(crc32_by_bits) u32 crc32_by_bits(u32 bytes) {
  u32 crc = ~0u;
  for (u32 i = 0; i < bytes; i++) {
    crc ^= data[i];
    for (u32 bit = 0; bit < 8; bit++) crc = crc >> 1 ^ (0xedb88320u & (0u - (crc & 1)));
  }
  return ~crc;
}

EXPORT(crc64) u64 crc64(u32 bytes) {
  u64 crc = ~0ull;
  for (u32 i = 0; i < bytes; i++) {
    crc ^= data[i];
    for (u32 bit = 0; bit < 8; bit++) crc = crc >> 1 ^ (0xc96c5795d7870f42ull & (0ull - (crc & 1)));
  }
  return ~crc;
}

EXPORT(adler32) u32 adler32(u32 bytes) {
  u32 a = 1, b = 0;
  for (u32 i = 0; i < bytes; i++) a = (a + data[i]) % 65521, b = (b + a) % 65521;
  return b << 16 | a;
}

EXPORT(fletcher32) u32 fletcher32(u32 bytes) {
  u32 a = 0, b = 0;
  for (u32 i = 0; i + 1 < bytes; i += 2) a = (a + (data[i] | (u32)data[i + 1] << 8)) % 65535, b = (b + a) % 65535;
  return b << 16 | a;
}

EXPORT(fnv) u64 fnv(u32 bytes) {
  u64 hash = 14695981039346656037ull;
  for (u32 i = 0; i < bytes; i++) hash = (hash ^ data[i]) * 1099511628211ull;
  return hash;
}

static void nine(void) {
  for (u32 i = 0; i < 9; i++) data[i] = (u8)('1' + i);
}

EXPORT(crc32_of_digits) u32 crc32_of_digits(void) {
  nine();
  return crc32(9);
}

EXPORT(adler32_of_digits) u32 adler32_of_digits(void) {
  nine();
  return adler32(9);
}
