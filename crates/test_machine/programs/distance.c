/* Dynamic programs on texts: edit distance, longest common subsequence, longest palindrome, partitions of a number.
call levenshtein 200 200 1
call levenshtein 1 300 2
call levenshtein 0 17 2
call common 250 180 3
call palindrome 150 4
call partitions 200
call increasing 300 5
*/
#include "program.h"

static u8 one[512], two[512];
static u32 row[513], above[513];
static u16 table[160][160];

static void write(u8 *text, u32 count, u32 *seed) {
  for (u32 i = 0; i < count; i++) text[i] = (u8)('a' + (next_random(seed) >> 8) % 4);
}

static u32 least(u32 a, u32 b) { return a < b ? a : b; }
static u32 greatest(u32 a, u32 b) { return a > b ? a : b; }

EXPORT(levenshtein) u32 levenshtein(u32 n, u32 m, u32 seed) {
  write(one, n, &seed), write(two, m, &seed);
  for (u32 j = 0; j <= m; j++) row[j] = j;
  for (u32 i = 1; i <= n; i++) {
    u32 diagonal = row[0];
    row[0] = i;
    for (u32 j = 1; j <= m; j++) {
      u32 kept = row[j];
      row[j] = least(least(row[j], row[j - 1]) + 1, diagonal + (one[i - 1] != two[j - 1]));
      diagonal = kept;
    }
  }
  return row[m];
}

EXPORT(common) u32 common(u32 n, u32 m, u32 seed) {
  write(one, n, &seed), write(two, m, &seed);
  for (u32 j = 0; j <= m; j++) above[j] = row[j] = 0;
  for (u32 i = 0; i < n; i++) {
    for (u32 j = 0; j < m; j++) row[j + 1] = one[i] == two[j] ? above[j] + 1 : greatest(above[j + 1], row[j]);
    for (u32 j = 0; j <= m; j++) above[j] = row[j];
  }
  return row[m];
}

/* The length of the longest subsequence that reads the same backwards. */
EXPORT(palindrome) u32 palindrome(u32 n, u32 seed) {
  write(one, n, &seed);
  for (u32 i = n; i-- > 0;) {
    table[i][i] = 1;
    for (u32 j = i + 1; j < n; j++) {
      u32 inner = j > i + 1 ? table[i + 1][j - 1] : 0;
      table[i][j] = (u16)(one[i] == one[j] ? inner + 2 : greatest(table[i + 1][j], table[i][j - 1]));
    }
  }
  return table[0][n - 1];
}

EXPORT(partitions) u64 partitions(u32 n) {
  static u64 ways[513];
  ways[0] = 1;
  for (u32 i = 1; i <= n; i++) ways[i] = 0;
  for (u32 part = 1; part <= n; part++)
    for (u32 i = part; i <= n; i++) ways[i] += ways[i - part];
  return ways[n];
}

/* The longest rising subsequence, by places found by halving. */
EXPORT(increasing) u32 increasing(u32 n, u32 seed) {
  u32 length = 0;
  for (u32 i = 0; i < n; i++) {
    u32 item = next_random(&seed), low = 0, high = length;
    while (low < high) {
      u32 middle = (low + high) / 2;
      if (row[middle] < item) low = middle + 1;
      else high = middle;
    }
    row[low] = item;
    if (low == length) length++;
  }
  return length;
}
