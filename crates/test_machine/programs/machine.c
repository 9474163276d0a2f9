/* A small stack machine whose operations are reached through a table of functions, of several types.
call factorial 10
call factorial 20
call primes 500
call gcd 1000000007 998244353
call fold 0 1000
call fold 1 1000
call fold 2 1000
call fold 3 1000
call compare_sort 300 5 0
call compare_sort 300 5 1
call compare_sort 300 5 2
*/
#include "program.h"

typedef struct {
  u64 stack[64];
  u32 height, place, halted;
  u64 memory[16], steps;
  const s32 *code;
} Machine;

typedef void (*Operation)(Machine *, s32);

static u64 pop(Machine *m) { return m->stack[--m->height & 63]; }
static void push(Machine *m, u64 value) { m->stack[m->height++ & 63] = value; }
static void do_halt(Machine *m, s32 n) { m->halted = 1, (void)n; }
static void do_push(Machine *m, s32 n) { push(m, (u64)n); }
static void do_load(Machine *m, s32 n) { push(m, m->memory[n]); }
static void do_store(Machine *m, s32 n) { m->memory[n] = pop(m); }
static void do_add(Machine *m, s32 n) { push(m, pop(m) + pop(m) + (u64)n); }
static void do_multiply(Machine *m, s32 n) { push(m, pop(m) * pop(m) + (u64)n); }
static void do_subtract(Machine *m, s32 n) {
  u64 right = pop(m);
  push(m, pop(m) - right + (u64)n);
}
static void do_rest(Machine *m, s32 n) {
  u64 right = pop(m);
  push(m, pop(m) % right + (u64)n);
}
static void do_jump(Machine *m, s32 n) { m->place = (u32)n; }
static void do_jump_zero(Machine *m, s32 n) {
  if (!pop(m)) m->place = (u32)n;
}
static void do_less(Machine *m, s32 n) {
  u64 right = pop(m);
  push(m, (pop(m) < right) ^ (u64)n);
}

enum { HALT, PUSH, LOAD, STORE, ADD, MULTIPLY, SUBTRACT, REST, JUMP, JUMP_ZERO, LESS };
static const Operation operations[] = {do_halt,     do_push, do_load, do_store,     do_add, do_multiply,
                                       do_subtract, do_rest, do_jump, do_jump_zero, do_less};

static u64 execute(const s32 *code, u64 first, u64 second, u32 most) {
  static Machine m;
  m.height = m.place = m.halted = 0, m.steps = 0, m.code = code;
  for (u32 i = 0; i < 16; i++) m.memory[i] = 0;
  m.memory[0] = first, m.memory[1] = second;
  while (!m.halted && m.steps++ < most) {
    const s32 *at = &m.code[2 * m.place++];
    operations[at[0]](&m, at[1]);
  }
  return pop(&m);
}

EXPORT(factorial) u64 factorial(u32 n) {
  static const s32 code[] = {PUSH, 1, STORE, 2, LOAD, 0, JUMP_ZERO, 13, LOAD, 2, LOAD, 0, MULTIPLY, 0, STORE, 2,
                             LOAD, 0, PUSH, -1, ADD, 0, STORE, 0, JUMP, 2, LOAD, 2, HALT, 0};
  return execute(code, n, 0, 100000);
}

EXPORT(gcd) u64 gcd(u64 a, u64 b) {
  static const s32 code[] = {LOAD,  1, JUMP_ZERO, 9, LOAD,  0, LOAD, 1, REST, 0, LOAD, 1,
                             STORE, 0, STORE,     1, JUMP,  0, LOAD, 0, HALT, 0};
  return execute(code, a, b, 100000);
}

/* How many primes are below a limit, by division. */
EXPORT(primes) u64 primes(u32 limit) {
  static const s32 code[] = {
      PUSH, 2, STORE, 2,                                      /* 0: n = 2 */
      LOAD, 2, LOAD, 0, LESS, 0, JUMP_ZERO, 29,               /* 2: while n < limit */
      PUSH, 2, STORE, 3,                                      /* 6: d = 2 */
      LOAD, 2, LOAD, 3, LOAD, 3, MULTIPLY, 0, LESS, 0,        /* 8: n < d * d: prime */
      JUMP_ZERO, 19, LOAD, 4, PUSH, 1, ADD, 0, STORE, 4,      /* 13 */
      JUMP, 26,                                               /* 18 */
      LOAD, 2, LOAD, 3, REST, 0, JUMP_ZERO, 26,               /* 19: divides: no prime */
      LOAD, 3, PUSH, 1, JUMP, 31,                             /* 23: d = d + 1 */
      LOAD, 2, PUSH, 1, JUMP, 34,                             /* 26: n = n + 1 */
      LOAD, 4, HALT, 0,                                       /* 29 */
      ADD, 0, STORE, 3, JUMP, 8,                              /* 31 */
      ADD, 0, STORE, 2, JUMP, 2,                              /* 34 */
  };
  return execute(code, limit, 0, 60000);
}

typedef u64 (*Binary)(u64, u64);
static u64 sum_of(u64 a, u64 b) { return a + b; }
static u64 mixed_of(u64 a, u64 b) { return a * 6364136223846793005ull + b; }
static u64 either_of(u64 a, u64 b) { return a << 1 ^ a >> 63 ^ b; }
static u64 greatest_of(u64 a, u64 b) { return a * 7 % 1009 > b ? a : b; }
static const Binary binaries[] = {sum_of, mixed_of, either_of, greatest_of};

EXPORT(fold) u64 fold(u32 which, u32 count) {
  u64 value = 0;
  for (u32 i = 0; i < count; i++) value = binaries[(which + (i & 1) * (which & 1)) & 3](value, i);
  return value;
}

typedef s32 (*Compare)(u32, u32);
static s32 rising(u32 a, u32 b) { return a < b ? -1 : a > b; }
static s32 falling(u32 a, u32 b) { return a > b ? -1 : a < b; }
static s32 by_bits(u32 a, u32 b) {
  s32 apart = __builtin_popcount(a) - __builtin_popcount(b);
  return apart ? apart : rising(a, b);
}
static const Compare compares[] = {rising, falling, by_bits};

EXPORT(compare_sort) u64 compare_sort(u32 count, u32 seed, u32 which) {
  static u32 items[512];
  Compare compare = compares[which];
  u64 mixed = 0;
  for (u32 i = 0; i < count; i++) {
    u32 item = next_random(&seed), j = i;
    for (; j > 0 && compare(item, items[j - 1]) < 0; j--) items[j] = items[j - 1];
    items[j] = item;
  }
  for (u32 i = 0; i < count; i++) mixed = mixed * 1000003 + items[i];
  return mixed;
}
