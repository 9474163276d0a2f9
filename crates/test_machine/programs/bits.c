/* Bits: counts, leading and trailing zeros, turns, reversals, Gray code, Morton code, products of polynomials, narrow numbers.
call counts 500 1
call reversed 305419896
call reversed64 81985529216486895
call gray 1000
call morton 54321 12345
call carryless 1311768467463790320 81985529216486895
call narrow 400 2
call narrow64 400 3
call permuted 300 4
call hamming 200
call parity 18446744073709551615
call ordered 300 5
call halves 300 6
call least_half 500 7
call next_same 255 1000
*/
#include "program.h"

EXPORT(counts) u64 counts(u32 times, u32 seed) {
  u64 mixed = 0;
  for (u32 i = 0; i < times; i++) {
    u32 a = next_random(&seed) >> (i & 31);
    u64 b = (u64)next_random(&seed) << (i & 63);
    mixed = mixed * 31 + (u32)__builtin_popcount(a) + (a ? (u32)__builtin_clz(a) * 33 + (u32)__builtin_ctz(a) : 1000);
    mixed = mixed * 37 + (u32)__builtin_popcountll(b) + (b ? (u32)__builtin_clzll(b) * 65 + (u32)__builtin_ctzll(b) : 2000);
  }
  return mixed;
}

EXPORT(reversed) u32 reversed(u32 x) {
  x = x >> 1 & 0x55555555 | (x & 0x55555555) << 1, x = x >> 2 & 0x33333333 | (x & 0x33333333) << 2;
  x = x >> 4 & 0x0f0f0f0f | (x & 0x0f0f0f0f) << 4, x = x >> 8 & 0x00ff00ff | (x & 0x00ff00ff) << 8;
  return x >> 16 | x << 16;
}

EXPORT(reversed64) u64 reversed64(u64 x) { return (u64)reversed((u32)x) << 32 | reversed((u32)(x >> 32)); }

/* The numbers below a limit come back from their Gray codes, and neighbours differ in one bit. */
EXPORT(gray) u32 gray(u32 limit) {
  u32 right = 0;
  for (u32 n = 0; n < limit; n++) {
    u32 code = n ^ n >> 1, back = code;
    for (u32 shift = 1; shift < 32; shift *= 2) back ^= back >> shift;
    right += back == n && __builtin_popcount(code ^ ((n + 1) ^ (n + 1) >> 1)) == 1;
  }
  return right;
}

static u64 spread(u32 n) {
  u64 x = n;
  x = (x | x << 16) & 0x0000ffff0000ffff, x = (x | x << 8) & 0x00ff00ff00ff00ff, x = (x | x << 4) & 0x0f0f0f0f0f0f0f0f;
  x = (x | x << 2) & 0x3333333333333333, x = (x | x << 1) & 0x5555555555555555;
  return x;
}

EXPORT(morton) u64 morton(u32 x, u32 y) { return spread(x) | spread(y) << 1; }

EXPORT(carryless) u64 carryless(u64 a, u64 b) {
  u64 result = 0;
  for (; b; b >>= 1, a <<= 1) result ^= a & (0 - (b & 1));
  return result;
}

/* Loads and stores of 8, 16 and 32 bits, with and without sign, at places that aren't aligned. */
static u8 bytes[256];

EXPORT(narrow) u32 narrow(u32 times, u32 seed) {
  u32 mixed = 0;
  for (u32 i = 0; i < 256; i++) bytes[i] = (u8)(i * 7);
  for (u32 i = 0; i < times; i++) {
    u32 at = next_random(&seed) % 250, value = next_random(&seed);
    switch (value % 6) {
      case 0: mixed += (u32)(s32) * (volatile s8 *)(bytes + at); break;
      case 1: mixed ^= *(volatile u8 *)(bytes + at); break;
      case 2: mixed += (u32)(s32)((s16)(bytes[at] | bytes[at + 1] << 8)); break;
      case 3: bytes[at] = (u8)value; break;
      case 4: bytes[at] = (u8)value, bytes[at + 1] = (u8)(value >> 8); break;
      default: mixed = mixed << 7 | mixed >> 25;
    }
  }
  return mixed;
}

typedef struct __attribute__((packed)) {
  s8 a;
  s16 b;
  s32 c;
  s64 d;
  u8 e;
  u16 f;
  u32 g;
} Packed;

EXPORT(narrow64) u64 narrow64(u32 times, u32 seed) {
  static Packed items[16];
  u64 mixed = 1;
  for (u32 i = 0; i < times; i++) {
    Packed *item = &items[next_random(&seed) & 15];
    u64 value = (u64)next_random(&seed) << 32 | next_random(&seed);
    item->a = (s8)value, item->b = (s16)(value >> 8), item->c = (s32)(value >> 16), item->d = (s64)value;
    item->e = (u8)(value >> 24), item->f = (u16)(value >> 32), item->g = (u32)(value >> 7);
    item = &items[value >> 60];
    mixed += (u64)(s64)item->a, mixed ^= (u64)(s64)item->b << 9, mixed += (u64)(s64)item->c * 3, mixed ^= (u64)item->d;
    mixed = mixed * 5 + item->e, mixed += (u64)item->f << 21, mixed ^= (u64)item->g << 3;
  }
  return mixed;
}

/* A network of turns by counts that pass the width. */
EXPORT(permuted) u64 permuted(u32 times, u32 seed) {
  u64 x = seed;
  u32 y = seed;
  for (u32 i = 0; i < times; i++) {
    u32 by = (y + i) & 63;
    x = (x << by | x >> (-by & 63)) + 0x9e3779b97f4a7c15ull;
    y = (y << (by & 31) | y >> (-by & 31)) ^ (u32)x;
    x ^= (u64)((s64)x >> (by & 63)) + (u64)(s64)((s32)y >> (by & 31));
  }
  return x ^ y;
}

/* Single faults in Hamming's code of 7 bits that are put right. */
EXPORT(hamming) u32 hamming(u32 rounds) {
  u32 right = 0;
  for (u32 i = 0; i < rounds; i++) {
    u32 d = i & 15, d1 = d & 1, d2 = d >> 1 & 1, d3 = d >> 2 & 1, d4 = d >> 3 & 1;
    u32 code = (d1 ^ d2 ^ d4) | (d1 ^ d3 ^ d4) << 1 | d1 << 2 | (d2 ^ d3 ^ d4) << 3 | d2 << 4 | d3 << 5 | d4 << 6;
    code ^= 1u << i % 7;
    u32 s = 0;
    for (u32 k = 0; k < 7; k++)
      if (code >> k & 1) s ^= k + 1;
    if (s) code ^= 1u << (s - 1);
    right += ((code >> 2 & 1) | (code >> 4 & 7) << 1) == d;
  }
  return right;
}

EXPORT(parity) u32 parity(u64 x) {
  for (u32 shift = 32; shift; shift /= 2) x ^= x >> shift;
  return (u32)(x & 1);
}

/* The next number with as many bits, so many times. */
EXPORT(next_same) u32 next_same(u32 x, u32 times) {
  while (times--) {
    u32 low = x & (0u - x), carried = x + low;
    x = carried | (x ^ carried) / low >> 2;
  }
  return x;
}

/* Signed comparisons, quotients and rests, and turns to the right by counts that aren't known before. */
EXPORT(ordered) u64 ordered(u32 times, u32 seed) {
  u64 mixed = 0;
  for (u32 i = 0; i < times; i++) {
    s64 a = (s64)((u64)next_random(&seed) << 32 | next_random(&seed)) >> (i & 63), b = (s64)(s32)next_random(&seed);
    s32 c = (s32)next_random(&seed), d = (s32)next_random(&seed) >> (i & 31);
    u32 by = (u32)b & 63;
    mixed += (u64)(a < b) | (u64)(a <= b) << 1 | (u64)(a > b) << 2 | (u64)(a >= b) << 3;
    mixed ^= (u64)(c < d) << 4 | (u64)(c <= d) << 5 | (u64)(c > d) << 6 | (u64)(c >= d) << 7;
    if (d != 0 && d != -1) mixed = mixed * 3 + (i & 1 ? (u64)(s64)(c / d) * 5 : (u64)(s64)(c % d));
    if (b != 0 && b != -1) mixed = mixed * 7 + (u64)(a / b) * 11 + (u64)(a % b);
    mixed = mixed >> by | mixed << (-by & 63);
  }
  return mixed;
}

EXPORT(halves) u64 halves(u32 times, u32 seed) {
  static s16 items[64];
  static u16 others[64];
  u64 mixed = 0;
  for (u32 i = 0; i < times; i++) {
    u64 drawn = (u64)next_random(&seed) << 20 ^ next_random(&seed);
    items[drawn & 63] = (s16)(drawn >> 6), others[drawn >> 58] = (u16)drawn;
    mixed = mixed * 3 + (u32)items[drawn >> 22 & 63] + others[drawn >> 28 & 63] + (u64)(s64)items[drawn >> 34 & 63];
    others[drawn >> 40 & 63] = (u16)mixed;
  }
  return mixed;
}

EXPORT(least_half) s32 least_half(u32 times, u32 seed) {
  static s16 items[512];
  s32 least = 0;
  for (u32 i = 0; i < times; i++) items[i] = (s16)next_random(&seed);
  for (u32 i = 0; i < times; i++)
    if (items[i] < least) least = items[i];
  return least;
}
