/* Numbers with binary places in i64: Mandelbrot's set, sines by CORDIC, roots by Newton, logarithms, a filter, a transform.
call mandelbrot 24 60
call sine 1073741824
call sine 536870912
call root 8589934592
call logarithm 1000000
call filter 2000 1
call transform 64 2
call transform_back 128 3
*/
#include "program.h"

#define ONE (1ll << 28)
static s64 times(s64 a, s64 b) { return (a * b) >> 28; }

EXPORT(mandelbrot) u32 mandelbrot(s32 side, u32 most) {
  u32 sum = 0;
  for (s32 row = 0; row < side; row++)
    for (s32 column = 0; column < side; column++) {
      s64 cx = column * 3 * ONE / side - 2 * ONE, cy = row * 2 * ONE / side - ONE, x = 0, y = 0;
      u32 steps = 0;
      while (steps < most && times(x, x) + times(y, y) <= 4 * ONE) {
        s64 next = times(x, x) - times(y, y) + cx;
        y = 2 * times(x, y) + cy, x = next, steps++;
      }
      sum = sum * 5 + steps;
    }
  return sum;
}

/* Of an angle in units of 2^-32 of a turn; in units of 2^-30. */
EXPORT(sine) s32 sine(u32 angle) {
  static const u32 turns[24] = {0x20000000, 0x12e4051e, 0x09fb385b, 0x051111d4, 0x028b0d43, 0x0145d7e1, 0x00a2f61e, 0x00517c55,
                                0x0028be53, 0x00145f2f, 0x000a2f98, 0x000517cc, 0x00028be6, 0x000145f3, 0x0000a2fa, 0x0000517d,
                                0x000028be, 0x0000145f, 0x00000a30, 0x00000518, 0x0000028c, 0x00000146, 0x000000a3, 0x00000051};
  s32 x = 652032874, y = 0, z = (s32)(angle & 0x3fffffff);
  if (angle >> 30 & 1) z = 0x40000000 - z;
  for (u32 i = 0; i < 24; i++) {
    s32 dx = x >> i, dy = y >> i;
    if (z >= 0) x -= dy, y += dx, z -= (s32)turns[i];
    else x += dy, y -= dx, z += (s32)turns[i];
  }
  return angle >> 31 ? -y : y;
}

/* In 28 binary places, by Newton. */
EXPORT(root) s64 root(s64 n) {
  s64 x = n > ONE ? n : ONE;
  for (u32 i = 0; i < 60; i++) {
    s64 next = (x + (n << 28) / x) / 2;
    if (next == x) break;
    x = next;
  }
  return x;
}

/* To base 2, in 28 binary places, of a number of at least 1. */
EXPORT(logarithm) s64 logarithm(u64 n) {
  u32 whole = 63 - (u32)__builtin_clzll(n);
  s64 result = (s64)whole << 28, x = whole > 28 ? (s64)(n >> (whole - 28)) : (s64)(n << (28 - whole));
  for (s64 bit = ONE / 2; bit; bit /= 2) {
    x = times(x, x);
    if (x >= 2 * ONE) x >>= 1, result += bit;
  }
  return result;
}

EXPORT(filter) s64 filter(u32 count, u32 seed) {
  s64 low = 0, band = 0, sum = 0;
  for (u32 i = 0; i < count; i++) {
    s64 in = (s64)(s32)next_random(&seed) >> 3, high = in - low - times(band, ONE / 4);
    band += times(high, ONE / 8), low += times(band, ONE / 8);
    sum = (s64)((u64)sum * 3 + (u64)low);
  }
  return sum;
}

/* The transform of Fourier over the numbers modulo 998244353. */
#define PRIME 998244353u
static u32 points[256];

static u32 power(u32 base, u32 exponent) {
  u64 result = 1, x = base;
  for (; exponent; exponent >>= 1, x = x * x % PRIME)
    if (exponent & 1) result = result * x % PRIME;
  return (u32)result;
}

static void turn(u32 count, u32 root) {
  for (u32 i = 1, j = 0; i < count; i++) {
    u32 bit = count >> 1;
    for (; j & bit; bit >>= 1) j ^= bit;
    j ^= bit;
    if (i < j) {
      u32 kept = points[i];
      points[i] = points[j], points[j] = kept;
    }
  }
  for (u32 length = 2; length <= count; length *= 2) {
    u32 step = power(root, (PRIME - 1) / length);
    for (u32 i = 0; i < count; i += length) {
      u64 w = 1;
      for (u32 k = 0; k < length / 2; k++) {
        u32 u = points[i + k], v = (u32)(points[i + k + length / 2] * w % PRIME);
        points[i + k] = u + v >= PRIME ? u + v - PRIME : u + v;
        points[i + k + length / 2] = u >= v ? u - v : u + PRIME - v;
        w = w * step % PRIME;
      }
    }
  }
}

EXPORT(transform) u64 transform(u32 count, u32 seed) {
  u64 mixed = 0;
  for (u32 i = 0; i < count; i++) points[i] = next_random(&seed) % PRIME;
  turn(count, 3);
  for (u32 i = 0; i < count; i++) mixed = mixed * 31 + points[i];
  return mixed;
}

/* How many points come back. */
EXPORT(transform_back) u32 transform_back(u32 count, u32 seed) {
  u32 same = 0, again = seed, part = power(count, PRIME - 2);
  for (u32 i = 0; i < count; i++) points[i] = next_random(&seed) % PRIME;
  turn(count, 3);
  turn(count, power(3, PRIME - 2));
  for (u32 i = 0; i < count; i++) same += (u64)points[i] * part % PRIME == next_random(&again) % PRIME;
  return same;
}
