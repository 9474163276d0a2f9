/* Shortest ways: Dijkstra with a heap on a grid, breadth first, all pairs by Floyd, spanning tree, topological order.
call dijkstra 40 1
call dijkstra 2 1
call breadth_first 60 2
call all_pairs 30 3
call spanning_tree 64 4
call order 200 5
*/
#include "program.h"

#define FAR 0x3fffffffu
static u8 cost[4096];
static u32 distances[4096], heap[16384], count, matrix[64][64];

static void fill(u32 cells, u32 seed) {
  for (u32 i = 0; i < cells; i++) cost[i] = (u8)(next_random(&seed) % 9 + 1), distances[i] = FAR;
}

static void push(u32 key) {
  u32 at = count++;
  for (; at > 0 && heap[(at - 1) / 2] > key; at = (at - 1) / 2) heap[at] = heap[(at - 1) / 2];
  heap[at] = key;
}

static u32 pop(void) {
  u32 top = heap[0], key = heap[--count], at = 0;
  for (u32 child; (child = 2 * at + 1) < count; at = child) {
    if (child + 1 < count && heap[child + 1] < heap[child]) child++;
    if (heap[child] >= key) break;
    heap[at] = heap[child];
  }
  heap[at] = key;
  return top;
}

/* From corner to corner of a square; a key has the distance above 12 bits of the cell. */
EXPORT(dijkstra) u32 dijkstra(u32 side, u32 seed) {
  fill(side * side, seed);
  count = 0, distances[0] = 0;
  push(0);
  while (count) {
    u32 key = pop(), cell = key & 4095, far = key >> 12;
    if (far > distances[cell]) continue;
    for (u32 turn = 0; turn < 4; turn++) {
      u32 x = cell % side + (turn == 0) - (turn == 1), y = cell / side + (turn == 2) - (turn == 3);
      if (x >= side || y >= side) continue;
      u32 next = y * side + x, there = far + cost[next];
      if (there < distances[next]) distances[next] = there, push(there << 12 | next);
    }
  }
  return distances[side * side - 1];
}

/* The cells that can be reached, and above them the greatest number of steps. */
EXPORT(breadth_first) u64 breadth_first(u32 side, u32 seed) {
  fill(side * side, seed);
  u32 first = 0, last = 0, most = 0;
  heap[last++] = 0, distances[0] = 0;
  while (first < last) {
    u32 cell = heap[first++];
    most = distances[cell];
    s32 ways[4] = {cell % side + 1 < side ? 1 : 0, cell % side ? -1 : 0, cell / side + 1 < side ? (s32)side : 0,
                   cell / side ? -(s32)side : 0};
    for (u32 turn = 0; turn < 4; turn++) {
      u32 next = cell + (u32)ways[turn];
      if (distances[next] != FAR || cost[next] > 6) continue;
      distances[next] = distances[cell] + 1, heap[last++] = next;
    }
  }
  return (u64)most << 32 | last;
}

EXPORT(all_pairs) u64 all_pairs(u32 n, u32 seed) {
  for (u32 i = 0; i < n; i++)
    for (u32 j = 0; j < n; j++) {
      u32 drawn = next_random(&seed);
      matrix[i][j] = i == j ? 0 : drawn % 5 ? FAR : drawn / 5 % 100 + 1;
    }
  for (u32 k = 0; k < n; k++)
    for (u32 i = 0; i < n; i++)
      for (u32 j = 0; j < n; j++)
        if (matrix[i][k] + matrix[k][j] < matrix[i][j]) matrix[i][j] = matrix[i][k] + matrix[k][j];
  u64 mixed = 0;
  for (u32 i = 0; i < n; i++)
    for (u32 j = 0; j < n; j++) mixed = mixed * 33 + matrix[i][j];
  return mixed;
}

static u32 leader[64];

static u32 leader_of(u32 i) {
  while (leader[i] != i) i = leader[i] = leader[leader[i]];
  return i;
}

/* Kruskal's, over edges drawn at random, cheapest first. */
EXPORT(spanning_tree) u32 spanning_tree(u32 n, u32 seed) {
  u32 total = 0, left = n - 1;
  for (u32 i = 0; i < n; i++) leader[i] = i;
  count = 0;
  for (u32 i = 0; i < 8 * n; i++) {
    u32 drawn = next_random(&seed);
    push((drawn >> 12 & 1023) << 12 | drawn % n << 6 | (drawn >> 22) % n);
  }
  while (count && left) {
    u32 key = pop(), a = leader_of(key >> 6 & 63), b = leader_of(key & 63);
    if (a != b) leader[a] = b, total += key >> 12, left--;
  }
  return total * 64 + left;
}

/* An order in which each of n tasks stands behind those that it needs, mixed. */
EXPORT(order) u64 order(u32 n, u32 seed) {
  static u32 needed_by[1024][2];
  u32 edges = 3 * n, first = 0, last = 0;
  u64 mixed = 0;
  for (u32 i = 0; i < n; i++) distances[i] = 0;
  for (u32 i = 0; i < edges; i++) {
    u32 a = next_random(&seed) % n, b = next_random(&seed) % n;
    needed_by[i][0] = a < b ? a : b, needed_by[i][1] = a < b ? b : a;
    if (a != b) distances[needed_by[i][1]]++;
  }
  for (u32 i = n; i-- > 0;)
    if (!distances[i]) heap[last++] = i;
  while (first < last) {
    u32 task = heap[first++];
    mixed = mixed * 1000003 + task;
    for (u32 i = 0; i < edges; i++)
      if (needed_by[i][0] == task && needed_by[i][1] != task && --distances[needed_by[i][1]] == 0) heap[last++] = needed_by[i][1];
  }
  return last == n ? mixed : 0;
}
