/* The ways to place n queens: by recursion over bit masks, by backtracking in a loop, and the first solution's columns.
call by_bits 1
call by_bits 2
call by_bits 6
call by_bits 8
call by_loop 7
call by_loop 8
call first 8
call first 12
*/
#include "program.h"

ALONE static u32 place(u32 all, u32 columns, u32 left, u32 right) {
  if (columns == all) return 1;
  u32 found = 0;
  for (u32 open = all & ~(columns | left | right); open; open &= open - 1) {
    u32 bit = open & (0u - open);
    found += place(all, columns | bit, (left | bit) << 1, (right | bit) >> 1);
  }
  return found;
}

EXPORT(by_bits) u32 by_bits(u32 n) { return place((1u << n) - 1, 0, 0, 0); }

static s32 column[16];

static s32 is_free(s32 row) {
  for (s32 i = 0; i < row; i++) {
    s32 apart = column[i] - column[row];
    if (apart == 0 || apart == row - i || apart == i - row) return 0;
  }
  return 1;
}

static u64 search(s32 n, s32 only_first) {
  u64 found = 0;
  s32 row = 0;
  column[0] = -1;
  while (row >= 0) {
    do column[row]++;
    while (column[row] < n && !is_free(row));
    if (column[row] == n) {
      row--;
    } else if (row == n - 1) {
      if (only_first) {
        for (s32 i = 0; i < n; i++) found = found << 4 | (u64)column[i];
        return found;
      }
      found++;
    } else {
      column[++row] = -1;
    }
  }
  return found;
}

EXPORT(by_loop) u32 by_loop(s32 n) { return (u32)search(n, 0); }
EXPORT(first) u64 first(s32 n) { return search(n, 1); }
