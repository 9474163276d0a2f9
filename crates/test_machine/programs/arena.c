/* Memory that grows: lists and a table of words in an arena that asks for pages when it is full, and a free list.
call pages
call list 20000
call reversed_list 5000 2
call table 3000 3
call free_list 4000 4
call big 200000
call pages
*/
#include "program.h"

#define MOST (16u * 65536)
static u32 used, limit;

#ifdef __wasm__
/* Behind the memory that the module begins with. */
static u32 first;
static u8 *bytes(u32 at) { return (u8 *)(first + at); }
static u32 is_grown(void) {
  if (!first) first = (u32)__builtin_wasm_memory_size(0) * 65536;
  return (s32)__builtin_wasm_memory_grow(0, 1) >= 0;
}
#else
static u8 room[MOST] __attribute__((aligned(8)));
static u8 *bytes(u32 at) { return room + at; }
static u32 is_grown(void) { return limit < MOST; }
#endif

/* Zeros, where they were never taken before. A place isn't zero; zero says that memory ran out. */
static u32 take(u32 size) {
  if (!used) used = 8;
  while (used + size > limit) {
    if (limit >= MOST || !is_grown()) return 0;
    limit += 65536;
  }
  u32 at = used;
  used += (size + 7) & ~7u;
  return at;
}

static u32 *word(u32 at, u32 place) { return (u32 *)(bytes(at) + 4 * place); }

/* Pages that were asked for. */
EXPORT(pages) u32 pages(void) { return limit / 65536; }

EXPORT(list) u64 list(u32 count) {
  u32 head = 0;
  u64 sum = 0;
  used = 0;
  for (u32 i = 0; i < count; i++) {
    u32 node = take(8);
    *word(node, 0) = i * i, *word(node, 1) = head, head = node;
  }
  for (; head; head = *word(head, 1)) sum = sum * 3 + *word(head, 0);
  return sum;
}

EXPORT(reversed_list) u64 reversed_list(u32 count, u32 seed) {
  u32 head = 0, turned = 0;
  u64 sum = 0;
  used = 0;
  for (u32 i = 0; i < count; i++) {
    u32 node = take(8);
    *word(node, 0) = next_random(&seed), *word(node, 1) = head, head = node;
  }
  while (head) {
    u32 next = *word(head, 1);
    *word(head, 1) = turned, turned = head, head = next;
  }
  for (; turned; turned = *word(turned, 1)) sum = sum * 5 + *word(turned, 0);
  return sum;
}

/* Words of letters counted in a table that doubles: distinct words, the greatest count, and the size. */
EXPORT(table) u64 table(u32 count, u32 seed) {
  u32 size = 16, filled = 0, most = 0;
  used = 0;
  u32 slots = take(12 * size);
  for (u32 i = 0; i < 3 * size; i++) *word(slots, i) = 0;
  for (u32 i = 0; i < count; i++) {
    u32 drawn = next_random(&seed), name = 0;
    for (u32 k = 0; k < 2 + (drawn & 1); k++) name = name * 27 + (drawn >> (4 * k + 1)) % 13 + 1;
    if (2 * filled >= size) {
      u32 larger = take(24 * size);
      for (u32 k = 0; k < 6 * size; k++) *word(larger, k) = 0;
      for (u32 k = 0; k < size; k++) {
        if (!*word(slots, 3 * k)) continue;
        u32 at = *word(slots, 3 * k) * 2654435761u >> 7 & (2 * size - 1);
        while (*word(larger, 3 * at)) at = (at + 1) & (2 * size - 1);
        *word(larger, 3 * at) = *word(slots, 3 * k), *word(larger, 3 * at + 1) = *word(slots, 3 * k + 1);
      }
      slots = larger, size *= 2;
    }
    u32 at = name * 2654435761u >> 7 & (size - 1);
    while (*word(slots, 3 * at) && *word(slots, 3 * at) != name) at = (at + 1) & (size - 1);
    if (!*word(slots, 3 * at)) *word(slots, 3 * at) = name, filled++;
    u32 times = ++*word(slots, 3 * at + 1);
    if (times > most) most = times;
  }
  return (u64)filled << 40 | (u64)most << 20 | size;
}

/* Blocks of three sizes taken and given back at random; how far the arena was used, and how often a block was used again. */
EXPORT(free_list) u64 free_list(u32 times, u32 seed) {
  static u32 kept[64], sizes[64], freed[3];
  u32 again = 0;
  used = 0;
  for (u32 i = 0; i < 64; i++) kept[i] = 0;
  freed[0] = freed[1] = freed[2] = 0;
  for (u32 i = 0; i < times; i++) {
    u32 drawn = next_random(&seed), which = drawn & 63;
    if (kept[which]) {
      *word(kept[which], 0) = freed[sizes[which]], freed[sizes[which]] = kept[which], kept[which] = 0;
    } else {
      u32 size = sizes[which] = (drawn >> 8) % 3;
      if (freed[size]) kept[which] = freed[size], freed[size] = *word(freed[size], 0), again++;
      else kept[which] = take(16u << (4 * size));
    }
  }
  return (u64)again << 32 | used;
}

/* One block of so many bytes, first and last written; 0 where there isn't as much. */
EXPORT(big) u32 big(u32 size) {
  used = 0;
  u32 block = take(size);
  if (!block) return 0;
  bytes(block)[0] = 7, bytes(block)[size - 1] = 9;
  return block + bytes(block)[0] * 100u + bytes(block)[size - 1];
}
