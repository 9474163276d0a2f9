/* Knapsacks: by table, by branch and bound, sums that meet, change of coins.
call by_table 40 500 1
call by_branches 22 120 2
call by_table 22 120 2
call subset_sum 15 3
call change 500
call fewest_coins 987
*/
#include "program.h"

static u32 weights[64], values[64], best[4096];

static void fill(u32 count, u32 seed) {
  for (u32 i = 0; i < count; i++) weights[i] = next_random(&seed) % 40 + 1, values[i] = next_random(&seed) % 100 + 1;
}

EXPORT(by_table) u32 by_table(u32 count, u32 room, u32 seed) {
  fill(count, seed);
  for (u32 i = 0; i <= room; i++) best[i] = 0;
  for (u32 i = 0; i < count; i++)
    for (u32 w = room; w >= weights[i]; w--) {
      u32 with = best[w - weights[i]] + values[i];
      if (with > best[w]) best[w] = with;
    }
  return best[room];
}

static u32 most;

ALONE static void branch(u32 item, u32 count, u32 room, u32 value, u32 rest) {
  if (value > most) most = value;
  if (item == count || value + rest <= most) return;
  if (weights[item] <= room) branch(item + 1, count, room - weights[item], value + values[item], rest - values[item]);
  branch(item + 1, count, room, value, rest - values[item]);
}

EXPORT(by_branches) u32 by_branches(u32 count, u32 room, u32 seed) {
  fill(count, seed);
  u32 rest = 0;
  for (u32 i = 0; i < count; i++) rest += values[i];
  for (u32 i = 1; i < count; i++)
    for (u32 j = i; j > 0 && values[j] * weights[j - 1] > values[j - 1] * weights[j]; j--) {
      u32 weight = weights[j], value = values[j];
      weights[j] = weights[j - 1], values[j] = values[j - 1], weights[j - 1] = weight, values[j - 1] = value;
    }
  most = 0;
  branch(0, count, room, 0, rest);
  return most;
}

/* The subset of least bits whose sum is half of all, or next below it; with the sum above it. */
EXPORT(subset_sum) u64 subset_sum(u32 count, u32 seed) {
  fill(count, seed);
  u32 all = 0, sum = 0, found = 0, nearest = 0;
  for (u32 i = 0; i < count; i++) all += weights[i];
  for (u32 step = 1; step < 1u << count; step++) {
    u32 bit = (u32)__builtin_ctz(step), gray = step ^ step >> 1;
    sum = gray >> bit & 1 ? sum + weights[bit] : sum - weights[bit];
    if (sum <= all / 2 && (sum > nearest || (sum == nearest && gray < found))) nearest = sum, found = gray;
  }
  return (u64)nearest << 32 | found;
}

static const u8 coins[8] = {1, 2, 5, 10, 20, 50, 100, 200};

EXPORT(change) u64 change(u32 amount) {
  static u64 ways[1024];
  for (u32 i = 0; i <= amount; i++) ways[i] = i == 0;
  for (u32 coin = 0; coin < 8; coin++)
    for (u32 i = coins[coin]; i <= amount; i++) ways[i] += ways[i - coins[coin]];
  return ways[amount];
}

EXPORT(fewest_coins) u32 fewest_coins(u32 amount) {
  best[0] = 0;
  for (u32 i = 1; i <= amount; i++) {
    best[i] = i;
    for (u32 coin = 1; coin < 8 && coins[coin] <= i; coin++)
      if (best[i - coins[coin]] + 1 < best[i]) best[i] = best[i - coins[coin]] + 1;
  }
  return best[amount];
}
