/* Matrices of i64: product, power by squaring, determinant without fractions, transposition.
call product 40 3
call product 17 -1
call fibonacci 90
call fibonacci 1000000000
call determinant 8 5
call transposed 32 6
*/
#include "program.h"

static s64 a[64 * 64], b[64 * 64], c[64 * 64];

static void fill(s64 *m, u32 n, u32 seed) {
  for (u32 i = 0; i < n * n; i++) m[i] = (s64)((u64)next_random(&seed) << 32 | next_random(&seed));
}

static u64 trace_and_sum(const s64 *m, u32 n) {
  u64 sum = 0;
  for (u32 i = 0; i < n; i++)
    for (u32 j = 0; j < n; j++) sum = sum * 31 + (u64)m[i * n + j];
  return sum;
}

ALONE static void multiply(u32 n) {
  for (u32 i = 0; i < n; i++)
    for (u32 j = 0; j < n; j++) {
      u64 sum = 0;
      for (u32 k = 0; k < n; k++) sum += (u64)a[i * n + k] * (u64)b[k * n + j];
      c[i * n + j] = (s64)sum;
    }
}

EXPORT(product) u64 product(u32 n, u32 seed) {
  fill(a, n, seed), fill(b, n, seed ^ 0x5bd1e995);
  multiply(n);
  return trace_and_sum(c, n);
}

/* The Fibonacci number at a place modulo 2^64, by the power of a matrix. */
EXPORT(fibonacci) u64 fibonacci(u64 place) {
  u64 m[4] = {1, 1, 1, 0}, r[4] = {1, 0, 0, 1};
  for (; place; place >>= 1) {
    if (place & 1) {
      u64 r0 = r[0] * m[0] + r[1] * m[2], r1 = r[0] * m[1] + r[1] * m[3];
      u64 r2 = r[2] * m[0] + r[3] * m[2], r3 = r[2] * m[1] + r[3] * m[3];
      r[0] = r0, r[1] = r1, r[2] = r2, r[3] = r3;
    }
    u64 m0 = m[0] * m[0] + m[1] * m[2], m1 = m[0] * m[1] + m[1] * m[3];
    u64 m2 = m[2] * m[0] + m[3] * m[2], m3 = m[2] * m[1] + m[3] * m[3];
    m[0] = m0, m[1] = m1, m[2] = m2, m[3] = m3;
  }
  return r[1];
}

/* Bareiss' algorithm, over entries from -9 to 9; divisions are signed and leave no rest. */
EXPORT(determinant) s64 determinant(u32 n, u32 seed) {
  s64 sign = 1, before = 1;
  for (u32 i = 0; i < n * n; i++) a[i] = (s64)(next_random(&seed) % 19) - 9;
  for (u32 k = 0; k + 1 < n; k++) {
    u32 pivot = k;
    while (pivot < n && a[pivot * n + k] == 0) pivot++;
    if (pivot == n) return 0;
    if (pivot != k) {
      sign = -sign;
      for (u32 j = 0; j < n; j++) {
        s64 kept = a[k * n + j];
        a[k * n + j] = a[pivot * n + j], a[pivot * n + j] = kept;
      }
    }
    for (u32 i = k + 1; i < n; i++)
      for (u32 j = k + 1; j < n; j++)
        a[i * n + j] = (a[i * n + j] * a[k * n + k] - a[i * n + k] * a[k * n + j]) / before;
    before = a[k * n + k];
  }
  return sign * a[n * n - 1];
}

EXPORT(transposed) u64 transposed(u32 n, u32 seed) {
  fill(a, n, seed);
  for (u32 i = 0; i < n; i++)
    for (u32 j = 0; j < i; j++) {
      s64 kept = a[i * n + j];
      a[i * n + j] = a[j * n + i], a[j * n + i] = kept;
    }
  return trace_and_sum(a, n);
}
