/* Primes: the sieve of Eratosthenes over bytes and over bits, the linear sieve, and sums of divisors.
call count 100
call count 40000
call count_bits 60000
call nth 1000
call last_prime 50000
call perfect 10000
*/
#include "program.h"

static u8 marked[65536];
static u64 bits[2048];
static u32 primes[8192];

EXPORT(count) u32 count(u32 limit) {
  u32 found = 0;
  for (u32 i = 0; i <= limit; i++) marked[i] = 0;
  for (u32 i = 2; i <= limit; i++) {
    if (marked[i]) continue;
    found++;
    for (u32 j = 2 * i; j <= limit; j += i) marked[j] = 1;
  }
  return found;
}

EXPORT(count_bits) u32 count_bits(u32 limit) {
  u32 words = limit / 64 + 1, found = 0;
  for (u32 i = 0; i < words; i++) bits[i] = ~0ull;
  bits[0] &= ~3ull;
  for (u32 i = 2; i * i <= limit; i++)
    if (bits[i >> 6] >> (i & 63) & 1)
      for (u32 j = i * i; j <= limit; j += i) bits[j >> 6] &= ~(1ull << (j & 63));
  for (u32 i = limit + 1; i < words * 64; i++) bits[i >> 6] &= ~(1ull << (i & 63));
  for (u32 i = 0; i < words; i++) found += (u32)__builtin_popcountll(bits[i]);
  return found;
}

/* The linear sieve: each number is crossed out once, by its least prime. */
static u32 linear(u32 limit) {
  u32 found = 0;
  for (u32 i = 0; i < limit; i++) marked[i] = 0;
  for (u32 i = 2; i < limit; i++) {
    if (!marked[i]) primes[found++] = i;
    for (u32 j = 0; j < found && i * primes[j] < limit; j++) {
      marked[i * primes[j]] = 1;
      if (i % primes[j] == 0) break;
    }
  }
  return found;
}

EXPORT(nth) u32 nth(u32 place) { return place < linear(20000) ? primes[place] : 0; }
EXPORT(last_prime) u32 last_prime(u32 limit) { return primes[linear(limit) - 1]; }

/* The sum of the perfect numbers below the limit. */
EXPORT(perfect) u32 perfect(u32 limit) {
  static u32 sums[16384];
  u32 total = 0;
  for (u32 i = 0; i < limit; i++) sums[i] = 0;
  for (u32 i = 1; i < limit; i++)
    for (u32 j = 2 * i; j < limit; j += i) sums[j] += i;
  for (u32 i = 2; i < limit; i++)
    if (sums[i] == i) total += i;
  return total;
}
