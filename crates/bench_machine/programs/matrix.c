/* Products of matrices of 64 by 64 numbers of 64 bits, each of the last product with a fixed matrix, which has odd numbers on
   its diagonal alone, so that no product is zero. */
#include "program.h"

#define SIDE 64
static u64 a[SIDE][SIDE], b[SIDE][SIDE], c[SIDE][SIDE];

ALONE static void multiply(void) {
  for (u32 i = 0; i < SIDE; i++)
    for (u32 j = 0; j < SIDE; j++) {
      u64 sum = 0;
      for (u32 k = 0; k < SIDE; k++) sum += a[i][k] * b[k][j];
      c[i][j] = sum;
    }
}

EXPORT(run) u64 run(void) {
  u64 trace = 0;
  for (u32 i = 0; i < SIDE; i++)
    for (u32 j = 0; j < SIDE; j++) a[i][j] = i * 31 + j, b[i][j] = (u64)(i ^ j) << 20 | (i == j);
  for (u32 time = 0; time < TIMES; time++) {
    multiply();
    for (u32 i = 0; i < SIDE; i++)
      for (u32 j = 0; j < SIDE; j++) a[i][j] = c[i][j];
  }
  for (u32 i = 0; i < SIDE; i++) trace += a[i][i];
  return trace;
}
