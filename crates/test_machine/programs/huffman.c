/* Huffman's code of a text: the tree by a heap, codes by walking it, the text coded and decoded bit by bit.
call length 5000 1
call coded 5000 1
call decoded 5000 1
call decoded 64 2
call depth 3000 7
*/
#include "program.h"

static u8 text[8192], coded_bytes[16384];
static u32 weight[512], code[256], places[256], heap[512], left[512], right[512], parent_free, heap_size, root;

static s32 before(u32 a, u32 b) { return weight[a] < weight[b] || (weight[a] == weight[b] && a < b); }

static void push(u32 node) {
  u32 at = heap_size++;
  for (; at > 0 && before(node, heap[(at - 1) / 2]); at = (at - 1) / 2) heap[at] = heap[(at - 1) / 2];
  heap[at] = node;
}

static u32 pop(void) {
  u32 top = heap[0], node = heap[--heap_size], at = 0;
  for (u32 child; (child = 2 * at + 1) < heap_size; at = child) {
    if (child + 1 < heap_size && before(heap[child + 1], heap[child])) child++;
    if (!before(heap[child], node)) break;
    heap[at] = heap[child];
  }
  heap[at] = node;
  return top;
}

ALONE static void walk(u32 node, u32 bits, u32 depth) {
  if (node < 256) {
    code[node] = bits, places[node] = depth;
    return;
  }
  walk(left[node], bits << 1, depth + 1);
  walk(right[node], bits << 1 | 1, depth + 1);
}

static void build(u32 count, u32 seed) {
  for (u32 i = 0; i < 512; i++) weight[i] = 0;
  for (u32 i = 0; i < 256; i++) places[i] = 0;
  for (u32 i = 0; i < count; i++) {
    u32 a = next_random(&seed), b = next_random(&seed);
    weight[text[i] = (u8)((a & b & 63) + 32)]++;
  }
  heap_size = 0, parent_free = 256;
  for (u32 i = 0; i < 256; i++)
    if (weight[i]) push(i);
  while (heap_size > 1) {
    u32 a = pop(), b = pop();
    left[parent_free] = a, right[parent_free] = b, weight[parent_free] = weight[a] + weight[b];
    push(parent_free++);
  }
  root = heap[0];
  walk(root, 0, 0);
}

static u32 encode(u32 count) {
  u32 bit = 0;
  for (u32 i = 0; i < 16384; i++) coded_bytes[i] = 0;
  for (u32 i = 0; i < count; i++)
    for (u32 k = places[text[i]]; k-- > 0; bit++) coded_bytes[bit >> 3] |= (u8)((code[text[i]] >> k & 1) << (bit & 7));
  return bit;
}

/* In bits. */
EXPORT(length) u32 length(u32 count, u32 seed) {
  build(count, seed);
  u32 bits = 0;
  for (u32 i = 0; i < 256; i++) bits += weight[i] * places[i];
  return bits;
}

EXPORT(coded) u64 coded(u32 count, u32 seed) {
  build(count, seed);
  u32 bytes = (encode(count) + 7) / 8;
  u64 hash = 14695981039346656037ull;
  for (u32 i = 0; i < bytes; i++) hash = (hash ^ coded_bytes[i]) * 1099511628211ull;
  return hash;
}

EXPORT(decoded) u32 decoded(u32 count, u32 seed) {
  build(count, seed);
  u32 bits = encode(count), node = root, at = 0;
  for (u32 bit = 0; bit < bits; bit++) {
    node = coded_bytes[bit >> 3] >> (bit & 7) & 1 ? right[node] : left[node];
    if (node < 256) {
      if (text[at++] != node) return 0;
      node = root;
    }
  }
  return at;
}

EXPORT(depth) u32 depth(u32 count, u32 seed) {
  build(count, seed);
  u32 most = 0;
  for (u32 i = 0; i < 256; i++)
    if (places[i] > most) most = places[i];
  return most;
}
