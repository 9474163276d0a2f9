/* Cells: the game of life on a torus by bytes and by bits, rule 110, Langton's ant.
call glider 20
call life 24 24 1
call life_by_bits 64 1
call rule110 300
call ant 5000
*/
#include "program.h"

static u8 cells[2][64 * 64];
static u64 rows[2][64];

static u32 step_cells(u32 side, u32 from) {
  u8 *old = cells[from & 1], *new = cells[~from & 1];
  u32 alive = 0;
  for (u32 y = 0; y < side; y++)
    for (u32 x = 0; x < side; x++) {
      u32 around = 0;
      for (u32 dy = side - 1; dy <= side + 1; dy++)
        for (u32 dx = side - 1; dx <= side + 1; dx++) around += old[(y + dy) % side * side + (x + dx) % side];
      u32 here = old[y * side + x];
      alive += new[y * side + x] = around == 3 || (here && around == 4);
    }
  return alive;
}

static u64 mixed_cells(u32 side, u32 which) {
  u64 mixed = 0;
  for (u32 i = 0; i < side * side; i++) mixed = mixed * 3 + cells[which & 1][i];
  return mixed;
}

/* A glider on a torus of 12 by 12. */
EXPORT(glider) u64 glider(u32 steps) {
  for (u32 i = 0; i < 144; i++) cells[0][i] = 0;
  cells[0][1] = cells[0][14] = cells[0][24] = cells[0][25] = cells[0][26] = 1;
  for (u32 i = 0; i < steps; i++)
    if (step_cells(12, i) != 5) return 0;
  return mixed_cells(12, steps);
}

EXPORT(life) u64 life(u32 side, u32 steps, u32 seed) {
  for (u32 i = 0; i < side * side; i++) cells[0][i] = (u8)(next_random(&seed) >> 9 & 1);
  u32 alive = 0;
  for (u32 i = 0; i < steps; i++) alive = step_cells(side, i);
  return mixed_cells(side, steps) ^ (u64)alive << 48;
}

static u64 turned(u64 row, u32 by) { return row << by | row >> (64 - by); }

/* 64 cells at once, sums by full adders; the live cells after the steps. */
EXPORT(life_by_bits) u32 life_by_bits(u32 steps, u32 seed) {
  for (u32 i = 0; i < 64; i++) rows[0][i] = (u64)next_random(&seed) << 32 | next_random(&seed);
  for (u32 step = 0; step < steps; step++) {
    u64 *old = rows[step & 1], *new = rows[~step & 1];
    for (u32 y = 0; y < 64; y++) {
      u64 one = 0, two = 0, four = 0;
      for (u32 k = 0; k < 9; k++) {
        if (k == 4) continue;
        u64 row = old[(y + k / 3 + 63) & 63], add = k % 3 == 0 ? turned(row, 1) : k % 3 == 2 ? turned(row, 63) : row;
        u64 carry = one & add, higher = two & carry;
        one ^= add, two ^= carry, four |= higher;
      }
      new[y] = two & ~four & (one | old[y]);
    }
  }
  u32 alive = 0;
  for (u32 y = 0; y < 64; y++) alive += (u32)__builtin_popcountll(rows[steps & 1][y]);
  return alive;
}

/* The middle of a row of 512 cells after so many steps of rule 110. */
EXPORT(rule110) u64 rule110(u32 steps) {
  static u64 line[8], next[8];
  for (u32 i = 0; i < 8; i++) line[i] = 0;
  line[0] = 1;
  for (u32 step = 0; step < steps; step++) {
    for (u32 i = 0; i < 8; i++) {
      u64 left = line[i] >> 1 | line[(i + 1) & 7] << 63, right = line[i] << 1 | line[(i + 7) & 7] >> 63;
      next[i] = (line[i] | right) & ~(line[i] & right & left);
    }
    for (u32 i = 0; i < 8; i++) line[i] = next[i];
  }
  return line[0] ^ line[4];
}

/* The black cells after so many steps, and where the ant stands. */
EXPORT(ant) u32 ant(u32 steps) {
  u32 x = 32, y = 32, way = 0, black = 0;
  for (u32 i = 0; i < 4096; i++) cells[0][i] = 0;
  for (u32 i = 0; i < steps; i++) {
    u8 *cell = &cells[0][y * 64 + x];
    way = (way + (*cell ? 3 : 1)) & 3;
    black += *cell ? -1u : 1u, *cell ^= 1;
    switch (way) {
      case 0: y = (y + 63) & 63; break;
      case 1: x = (x + 1) & 63; break;
      case 2: y = (y + 1) & 63; break;
      default: x = (x + 63) & 63;
    }
  }
  return black << 12 | y << 6 | x;
}
