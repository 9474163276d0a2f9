/* An ordered map as a balanced tree (AVL) in an arena: put, remove, look up, walk; and a treap, a binary index tree.
call build 1000 1
call build 0 1
call remove_half 1000 2
call depth 2000 3
call rising 1500
call index_tree 1000 4
call treap 500 5
*/
#include "program.h"

typedef struct {
  u32 key, value, left, right, height;
} Node;

static Node nodes[4096];
static u32 used;

static u32 height_of(u32 node) { return nodes[node].height; }

static void renew(u32 node) {
  u32 left = height_of(nodes[node].left), right = height_of(nodes[node].right);
  nodes[node].height = (left > right ? left : right) + 1;
}

static u32 turn_right(u32 node) {
  u32 top = nodes[node].left;
  nodes[node].left = nodes[top].right, nodes[top].right = node;
  renew(node), renew(top);
  return top;
}

static u32 turn_left(u32 node) {
  u32 top = nodes[node].right;
  nodes[node].right = nodes[top].left, nodes[top].left = node;
  renew(node), renew(top);
  return top;
}

static u32 balance(u32 node) {
  u32 left = nodes[node].left, right = nodes[node].right;
  renew(node);
  if (height_of(left) > height_of(right) + 1) {
    if (height_of(nodes[left].left) < height_of(nodes[left].right)) nodes[node].left = turn_left(left);
    return turn_right(node);
  }
  if (height_of(right) > height_of(left) + 1) {
    if (height_of(nodes[right].right) < height_of(nodes[right].left)) nodes[node].right = turn_right(right);
    return turn_left(node);
  }
  return node;
}

ALONE static u32 put(u32 node, u32 key, u32 value) {
  if (!node) {
    node = ++used;
    nodes[node].key = key, nodes[node].value = value;
    nodes[node].left = nodes[node].right = 0, nodes[node].height = 1;
    return node;
  }
  if (key < nodes[node].key) nodes[node].left = put(nodes[node].left, key, value);
  else if (key > nodes[node].key) nodes[node].right = put(nodes[node].right, key, value);
  else nodes[node].value += value;
  return balance(node);
}

ALONE static u32 remove_key(u32 node, u32 key) {
  if (!node) return 0;
  if (key < nodes[node].key) {
    nodes[node].left = remove_key(nodes[node].left, key);
  } else if (key > nodes[node].key) {
    nodes[node].right = remove_key(nodes[node].right, key);
  } else {
    if (!nodes[node].left) return nodes[node].right;
    if (!nodes[node].right) return nodes[node].left;
    u32 next = nodes[node].right;
    while (nodes[next].left) next = nodes[next].left;
    nodes[node].key = nodes[next].key, nodes[node].value = nodes[next].value;
    nodes[node].right = remove_key(nodes[node].right, nodes[next].key);
  }
  return balance(node);
}

static u64 mixed;

ALONE static void walk(u32 node) {
  if (!node) return;
  walk(nodes[node].left);
  mixed = mixed * 1000003 + nodes[node].key * 7 + nodes[node].value;
  walk(nodes[node].right);
}

static u32 filled(u32 count, u32 seed) {
  u32 root = 0;
  used = 0;
  for (u32 i = 0; i < count; i++) root = put(root, next_random(&seed) % (4 * count), i);
  return root;
}

static u64 walked(u32 root) {
  mixed = 0;
  walk(root);
  return mixed;
}

EXPORT(build) u64 build(u32 count, u32 seed) { return walked(filled(count, seed)); }

EXPORT(remove_half) u64 remove_half(u32 count, u32 seed) {
  u32 root = filled(count, seed);
  for (u32 key = 0; key < 4 * count; key += 2) root = remove_key(root, key);
  return walked(root);
}

EXPORT(depth) u32 depth(u32 count, u32 seed) { return height_of(filled(count, seed)); }

EXPORT(rising) u32 rising(u32 count) {
  u32 root = 0;
  used = 0;
  for (u32 i = 0; i < count; i++) root = put(root, i, 1);
  return height_of(root) << 16 | nodes[root].key;
}

/* Pairs out of order among numbers drawn at random, by sums over a binary index tree. */
EXPORT(index_tree) u32 index_tree(u32 count, u32 seed) {
  static u32 sums[2048];
  u32 pairs = 0;
  for (u32 i = 0; i < 2048; i++) sums[i] = 0;
  for (u32 i = 0; i < count; i++) {
    u32 item = next_random(&seed) % 2000 + 1, before = 0;
    for (u32 j = item; j; j &= j - 1) before += sums[j];
    pairs += i - before;
    for (u32 j = item; j < 2048; j += j & (0u - j)) sums[j]++;
  }
  return pairs;
}

/* A tree whose heights are drawn at random. */
ALONE static u32 insert(u32 node, u32 new) {
  if (!node) return new;
  if (nodes[new].key < nodes[node].key) {
    u32 child = nodes[node].left = insert(nodes[node].left, new);
    if (nodes[child].value <= nodes[node].value) return node;
    nodes[node].left = nodes[child].right, nodes[child].right = node;
    return child;
  }
  u32 child = nodes[node].right = insert(nodes[node].right, new);
  if (nodes[child].value <= nodes[node].value) return node;
  nodes[node].right = nodes[child].left, nodes[child].left = node;
  return child;
}

EXPORT(treap) u64 treap(u32 count, u32 seed) {
  u32 root = 0;
  for (u32 i = 1; i <= count; i++) {
    nodes[i].key = next_random(&seed), nodes[i].value = next_random(&seed), nodes[i].left = nodes[i].right = 0;
    root = insert(root, i);
  }
  return walked(root);
}
