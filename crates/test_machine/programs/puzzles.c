/* Puzzles by backtracking: sudoku, a knight's tour, exact covers, peg solitaire on a line, the 8-puzzle.
call sudoku 0
call sudoku 1
call knight 5 0
call knight 8 0
call tilings 6 6
call pegs 12
call eight 5
*/
#include "program.h"

static const char *const boards[] = {
    "53..7....6..195....98....6.8...6...34..8.3..17...2...6.6....28....419..5....8..79",
    "8..........36......7..9.2...5...7.......457.....1...3...1....68..85...1..9....4.."};
static u8 cell[81];
static u16 rows[9], columns[9], boxes[9];
static u32 tried;

static u32 box_of(u32 at) { return at / 27 * 3 + at % 9 / 3; }

static void turn(u32 at, u32 digit) {
  u16 bit = (u16)(1u << digit);
  rows[at / 9] ^= bit, columns[at % 9] ^= bit, boxes[box_of(at)] ^= bit;
}

/* The cell with the fewest digits left comes first. */
ALONE static u32 solve(void) {
  u32 best = 81, fewest = 10, free = 0;
  for (u32 at = 0; at < 81; at++) {
    if (cell[at]) continue;
    u32 left = 0x3fe & ~(u32)(rows[at / 9] | columns[at % 9] | boxes[box_of(at)]), count = (u32)__builtin_popcount(left);
    if (count < fewest) fewest = count, best = at, free = left;
  }
  if (best == 81) return 1;
  for (; free && tried < 300; free &= free - 1) {
    u32 digit = (u32)__builtin_ctz(free);
    tried++, cell[best] = (u8)digit, turn(best, digit);
    if (solve()) return 1;
    turn(best, digit), cell[best] = 0;
  }
  return 0;
}

EXPORT(sudoku) u64 sudoku(u32 which) {
  u64 mixed = 0;
  tried = 0;
  for (u32 i = 0; i < 9; i++) rows[i] = columns[i] = boxes[i] = 0;
  for (u32 i = 0; i < 81; i++) {
    char letter = boards[which][i];
    cell[i] = letter == '.' ? 0 : (u8)(letter - '0');
    if (cell[i]) turn(i, cell[i]);
  }
  u32 solved = solve();
  for (u32 i = 0; i < 81; i++) mixed = mixed * 10 + cell[i];
  return mixed * 2 + solved;
}

static const s8 jumps[8][2] = {{1, 2}, {2, 1}, {2, -1}, {1, -2}, {-1, -2}, {-2, -1}, {-2, 1}, {-1, 2}};
static u8 visited[64];

static u32 ways(s32 side, s32 x, s32 y) {
  u32 count = 0;
  for (u32 i = 0; i < 8; i++) {
    s32 a = x + jumps[i][0], b = y + jumps[i][1];
    count += a >= 0 && a < side && b >= 0 && b < side && !visited[b * side + a];
  }
  return count;
}

/* By Warnsdorff's rule; the fields that were reached, mixed. */
EXPORT(knight) u64 knight(s32 side, s32 start) {
  s32 x = start % side, y = start / side;
  u64 mixed = 0;
  u32 fields = 0;
  for (u32 i = 0; i < 64; i++) visited[i] = 0;
  for (;;) {
    u32 best = 8, fewest = 9;
    visited[y * side + x] = 1, fields++, mixed = mixed * 67 + (u32)(y * side + x);
    for (u32 i = 0; i < 8; i++) {
      s32 a = x + jumps[i][0], b = y + jumps[i][1];
      if (a < 0 || a >= side || b < 0 || b >= side || visited[b * side + a]) continue;
      u32 left = ways(side, a, b);
      if (left < fewest) fewest = left, best = i;
    }
    if (best == 8) return mixed << 8 | fields;
    x += jumps[best][0], y += jumps[best][1];
  }
}

/* The ways to cover a board with dominoes, by profiles. */
EXPORT(tilings) u64 tilings(u32 width, u32 height) {
  static u64 now[256], next[256];
  u32 all = 1u << width;
  for (u32 i = 0; i < all; i++) now[i] = i == 0;
  for (u32 y = 0; y < height; y++)
    for (u32 x = 0; x < width; x++) {
      for (u32 i = 0; i < all; i++) next[i] = 0;
      for (u32 i = 0; i < all; i++) {
        if (!now[i]) continue;
        u32 bit = 1u << x;
        if (i & bit) {
          next[i ^ bit] += now[i];
        } else {
          next[i | bit] += now[i];
          if (x + 1 < width && !(i & bit << 1)) next[i | bit << 1] += now[i];
        }
      }
      for (u32 i = 0; i < all; i++) now[i] = next[i];
    }
  return now[0];
}

static u8 dead[65536 / 8];

ALONE static u32 jump(u32 pegs, u32 holes) {
  if (!(pegs & (pegs - 1))) return 1;
  if (dead[pegs >> 3] >> (pegs & 7) & 1) return 0;
  for (u32 i = 0; i + 2 < holes; i++) {
    u32 three = pegs >> i & 7;
    if ((three == 3 || three == 6) && jump(pegs ^ 7u << i, holes)) return 1;
  }
  dead[pegs >> 3] |= (u8)(1u << (pegs & 7));
  return 0;
}

/* How many positions of so many holes in a line can be jumped down to one peg. */
EXPORT(pegs) u32 pegs(u32 holes) {
  u32 found = 0;
  for (u32 i = 0; i < sizeof dead; i++) dead[i] = 0;
  for (u32 i = 1; i < 1u << holes; i++) found += jump(i, holes);
  return found;
}

/* Boards of the 8-puzzle that are so many moves from the solved one, by sets of packed boards. */
EXPORT(eight) u32 eight(u32 moves) {
  static u64 seen[1024];
  u32 first = 0, last = 1;
  seen[0] = 0x123456780;
  for (u32 move = 0; move < moves; move++) {
    u32 end = last;
    for (u32 i = first; i < end; i++) {
      u64 board = seen[i];
      u32 hole = 0;
      while (board >> (4 * hole) & 15) hole++;
      for (u32 way = 0; way < 4; way++) {
        if ((way == 0 && hole % 3 == 2) || (way == 1 && hole % 3 == 0)) continue;
        if ((way == 2 && hole > 5) || (way == 3 && hole < 3)) continue;
        u32 other = way == 0 ? hole + 1 : way == 1 ? hole - 1 : way == 2 ? hole + 3 : hole - 3;
        u64 tile = board >> (4 * other) & 15, next = (board ^ tile << (4 * other)) | tile << (4 * hole);
        u32 known = 0;
        while (known < last && seen[known] != next) known++;
        if (known == last && last < 1024) seen[last++] = next;
      }
    }
    first = end;
  }
  return last;
}
