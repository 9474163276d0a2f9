/* Functions that call themselves: Ackermann, Fibonacci, towers, even and odd, permutations, subsets, Catalan, Hofstadter.
call ackermann 2 9
call ackermann 3 3
call fibonacci 20
call towers 12
call is_even 100
call is_even 81
call permutations 7
call hofstadter 20
call tak 12 8 4
call deep 120
call binomial 16 7
call mc_carthy 40
*/
#include "program.h"

EXPORT(ackermann) ALONE u32 ackermann(u32 m, u32 n) {
  if (m == 0) return n + 1;
  if (n == 0) return ackermann(m - 1, 1);
  return ackermann(m - 1, ackermann(m, n - 1));
}

EXPORT(fibonacci) ALONE u64 fibonacci(u32 n) { return n < 2 ? n : fibonacci(n - 1) + fibonacci(n - 2); }

static u32 pegs[3], moves;

ALONE static void move(u32 discs, u32 from, u32 to) {
  if (!discs) return;
  move(discs - 1, from, 3 - from - to);
  pegs[from] &= ~(1u << (discs - 1)), pegs[to] |= 1u << (discs - 1), moves++;
  move(discs - 1, 3 - from - to, to);
}

EXPORT(towers) u32 towers(u32 discs) {
  pegs[0] = (1u << discs) - 1, pegs[1] = pegs[2] = 0, moves = 0;
  move(discs, 0, 2);
  return moves << 16 | pegs[2];
}

static u32 is_odd(u32 n);
static u32 (*volatile odd)(u32) = is_odd;
EXPORT(is_even) ALONE u32 is_even(u32 n) { return n == 0 ? 1 : odd(n - 1); }
static u32 is_odd(u32 n) { return n == 0 ? 0 : is_even(n - 1); }

static u8 order[10];
static u64 mixed;

ALONE static void permute(u32 count, u32 fixed) {
  if (fixed == count) {
    for (u32 i = 0; i < count; i++) mixed = mixed * 11 + order[i];
    return;
  }
  for (u32 i = fixed; i < count; i++) {
    u8 kept = order[fixed];
    order[fixed] = order[i], order[i] = kept;
    permute(count, fixed + 1);
    order[i] = order[fixed], order[fixed] = kept;
  }
}

EXPORT(permutations) u64 permutations(u32 count) {
  mixed = 0;
  for (u32 i = 0; i < count; i++) order[i] = (u8)(i + 1);
  permute(count, 0);
  return mixed;
}

EXPORT(hofstadter) ALONE u32 hofstadter(u32 n) {
  return n < 3 ? 1 : hofstadter(n - hofstadter(n - 1)) + hofstadter(n - hofstadter(n - 2));
}

EXPORT(tak) ALONE s32 tak(s32 x, s32 y, s32 z) {
  return y >= x ? z : tak(tak(x - 1, y, z), tak(y - 1, z, x), tak(z - 1, x, y));
}

/* So many nested calls, each with work left when the next returns. */
EXPORT(deep) ALONE u64 deep(u32 n) { return n <= 1 ? 1 : deep(n - 1) * 3 + n; }

EXPORT(binomial) ALONE u32 binomial(u32 n, u32 k) { return k == 0 || k == n ? 1 : binomial(n - 1, k - 1) + binomial(n - 1, k); }

EXPORT(mc_carthy) ALONE s32 mc_carthy(s32 n) { return n > 100 ? n - 10 : mc_carthy(mc_carthy(n + 11)); }
