/* MD5 (RFC 1321), its table of sines written out, over generated messages. A result is one half of the digest.
call digits 1 0
call digits 1 1
call digits 8 0
call hash 3000 5 0
call hash 3000 5 1
call hash 63 2147483648 1
*/
#include "program.h"

static const u32 sines[64] = {
    0xd76aa478, 0xe8c7b756, 0x242070db, 0xc1bdceee, 0xf57c0faf, 0x4787c62a, 0xa8304613, 0xfd469501, 0x698098d8, 0x8b44f7af,
    0xffff5bb1, 0x895cd7be, 0x6b901122, 0xfd987193, 0xa679438e, 0x49b40821, 0xf61e2562, 0xc040b340, 0x265e5a51, 0xe9b6c7aa,
    0xd62f105d, 0x02441453, 0xd8a1e681, 0xe7d3fbc8, 0x21e1cde6, 0xc33707d6, 0xf4d50d87, 0x455a14ed, 0xa9e3e905, 0xfcefa3f8,
    0x676f02d9, 0x8d2a4c8a, 0xfffa3942, 0x8771f681, 0x6d9d6122, 0xfde5380c, 0xa4beea44, 0x4bdecfa9, 0xf6bb4b60, 0xbebfbc70,
    0x289b7ec6, 0xeaa127fa, 0xd4ef3085, 0x04881d05, 0xd9d4d039, 0xe6db99e5, 0x1fa27cf8, 0xc4ac5665, 0xf4292244, 0x432aff97,
    0xab9423a7, 0xfc93a039, 0x655b59c3, 0x8f0ccc92, 0xffeff47d, 0x85845dd1, 0x6fa87e4f, 0xfe2ce6e0, 0xa3014314, 0x4e0811a1,
    0xf7537e82, 0xbd3af235, 0x2ad7d2bb, 0xeb86d391};
static const u8 shifts[16] = {7, 12, 17, 22, 5, 9, 14, 20, 4, 11, 16, 23, 6, 10, 15, 21};
static u8 message[8192];
static u32 state[4];

static u32 word_at(u32 at) {
  return message[at] | (u32)message[at + 1] << 8 | (u32)message[at + 2] << 16 | (u32)message[at + 3] << 24;
}

ALONE static void compress(u32 at) {
  u32 a = state[0], b = state[1], c = state[2], d = state[3];
  for (u32 i = 0; i < 64; i++) {
    u32 mix, place;
    switch (i >> 4) {
      case 0: mix = (b & c) | (~b & d), place = i; break;
      case 1: mix = (d & b) | (~d & c), place = 5 * i + 1; break;
      case 2: mix = b ^ c ^ d, place = 3 * i + 5; break;
      default: mix = c ^ (b | ~d), place = 7 * i;
    }
    u32 sum = a + mix + sines[i] + word_at(at + 4 * (place & 15)), turn = shifts[(i >> 4) * 4 + (i & 3)];
    a = d, d = c, c = b, b += sum << turn | sum >> (32 - turn);
  }
  state[0] += a, state[1] += b, state[2] += c, state[3] += d;
}

static u64 digest(u32 bytes, u32 half) {
  u32 end = (bytes + 9 + 63) & ~63u;
  message[bytes] = 0x80;
  for (u32 i = bytes + 1; i < end - 8; i++) message[i] = 0;
  for (u32 i = 0; i < 8; i++) message[end - 8 + i] = (u8)((u64)bytes * 8 >> (8 * i));
  state[0] = 0x67452301, state[1] = 0xefcdab89, state[2] = 0x98badcfe, state[3] = 0x10325476;
  for (u32 at = 0; at < end; at += 64) compress(at);
  u64 result = 0;
  for (u32 i = 0; i < 8; i++) result = result << 8 | (state[2 * (half & 1) + i / 4] >> (8 * (i % 4)) & 255);
  return result;
}

/* Of "1234567890", so many times. */
EXPORT(digits) u64 digits(u32 times, u32 half) {
  for (u32 i = 0; i < 10 * times; i++) message[i] = (u8)('0' + (i + 1) % 10);
  return digest(10 * times, half);
}

EXPORT(hash) u64 hash(u32 bytes, u32 seed, u32 half) {
  for (u32 i = 0; i < bytes; i++) message[i] = (u8)next_random(&seed);
  return digest(bytes, half);
}
