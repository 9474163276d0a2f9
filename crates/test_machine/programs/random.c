/* Generators of random numbers: xorshift, Mersenne twister, PCG, splitmix, a shuffle; one keeps its state between calls.
call twister 5489 1
call twister 5489 1000
call twister 1 2
call xorshift 88172645463325252 1000
call splitmix 0 100
call pcg 42 54 50
call shuffle 200 1
call seed 7
call next
call next
call next
call dice 5000 3
*/
#include "program.h"

static u32 state[624], place;

static void twister_seed(u32 seed) {
  state[0] = seed;
  for (u32 i = 1; i < 624; i++) state[i] = 1812433253u * (state[i - 1] ^ state[i - 1] >> 30) + i;
  place = 624;
}

static u32 twister_next(void) {
  if (place == 624) {
    for (u32 i = 0; i < 624; i++) {
      u32 y = (state[i] & 0x80000000u) | (state[(i + 1) % 624] & 0x7fffffffu);
      state[i] = state[(i + 397) % 624] ^ y >> 1 ^ (y & 1 ? 0x9908b0dfu : 0);
    }
    place = 0;
  }
  u32 y = state[place++];
  y ^= y >> 11, y ^= y << 7 & 0x9d2c5680u, y ^= y << 15 & 0xefc60000u;
  return y ^ y >> 18;
}

/* The number at a place, counted from 1. */
EXPORT(twister) u32 twister(u32 seed, u32 which) {
  u32 value = 0;
  twister_seed(seed);
  while (which--) value = twister_next();
  return value;
}

EXPORT(xorshift) u64 xorshift(u64 x, u32 steps) {
  while (steps--) x ^= x << 13, x ^= x >> 7, x ^= x << 17;
  return x;
}

EXPORT(splitmix) u64 splitmix(u64 seed, u32 steps) {
  u64 mixed = 0;
  while (steps--) {
    u64 z = seed += 0x9e3779b97f4a7c15ull;
    z = (z ^ z >> 30) * 0xbf58476d1ce4e5b9ull, z = (z ^ z >> 27) * 0x94d049bb133111ebull, z ^= z >> 31;
    mixed = mixed * 3 + z;
  }
  return mixed;
}

EXPORT(pcg) u32 pcg(u64 seed, u64 stream, u32 steps) {
  u64 x = 0, add = stream << 1 | 1;
  u32 value = 0;
  x = x * 6364136223846793005ull + add, x += seed, x = x * 6364136223846793005ull + add;
  while (steps--) {
    u32 mixed = (u32)((x >> 18 ^ x) >> 27), turn = (u32)(x >> 59);
    value = mixed >> turn | mixed << (-turn & 31);
    x = x * 6364136223846793005ull + add;
  }
  return value;
}

EXPORT(shuffle) u64 shuffle(u32 count, u32 seed) {
  static u8 cards[256];
  u64 mixed = 0;
  twister_seed(seed);
  for (u32 i = 0; i < count; i++) cards[i] = (u8)i;
  for (u32 i = count; i > 1; i--) {
    u32 j = twister_next() % i;
    u8 kept = cards[i - 1];
    cards[i - 1] = cards[j], cards[j] = kept;
  }
  for (u32 i = 0; i < count; i++) mixed = mixed * 257 + cards[i];
  return mixed;
}

EXPORT(seed) u32 seed(u32 value) {
  twister_seed(value);
  return place;
}

EXPORT(next) u32 next(void) { return twister_next(); }

/* How often each face came up, 13 bits each. */
EXPORT(dice) u64 dice(u32 throws, u32 value) {
  u32 faces[6] = {0, 0, 0, 0, 0, 0};
  u64 result = 0;
  twister_seed(value);
  for (u32 i = 0; i < throws; i++) faces[((u64)twister_next() * 6) >> 32]++;
  for (u32 i = 0; i < 5; i++) result = result << 13 | faces[i];
  return result;
}
