/* The primes below 65536 by the sieve of Eratosthenes over bytes, again and again; their sum. */
#include "program.h"

#define LIMIT 65536
static u8 marked[LIMIT];

EXPORT(run) u64 run(void) {
  u64 sum = 0;
  for (u32 time = 0; time < TIMES; time++) {
    for (u32 i = 0; i < LIMIT; i++) marked[i] = 0;
    for (u32 i = 2; i < LIMIT; i++) {
      if (marked[i]) continue;
      sum += i;
      for (u32 j = 2 * i; j < LIMIT; j += i) marked[j] = 1;
    }
  }
  return sum;
}
