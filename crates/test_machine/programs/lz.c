/* A compression by references to what stood before (LZ77, with a table of hashes), and back, over generated text.
call packed 4000 1
call packed 20000 3
call packed 300 9
call round_trip 15000 3
call round_trip 1 1
call run_lengths 5000 4
*/
#include "program.h"

#define NONE 0xffffffffu
static u8 plain[32768], packed_bytes[65536], back[32768];
static u32 heads[4096];

/* Words out of a small list, so that there is something to find. */
static void write_text(u32 count, u32 seed) {
  static const char words[] = "page\0frame\0share\0module\0memory\0the \0of a \0is kept, \0and so on; \0zero ";
  u32 at = 0;
  while (at < count) {
    u32 word = next_random(&seed) % 10, place = 0;
    while (word--)
      while (words[place++]) {}
    for (; words[place] && at < count; place++) plain[at++] = (u8)words[place];
    if (next_random(&seed) % 16 == 0 && at < count) plain[at++] = (u8)next_random(&seed);
  }
}

static u32 hash_at(u32 at) {
  return (((u32)plain[at] << 16 | (u32)plain[at + 1] << 8 | plain[at + 2]) * 2654435761u) >> 20;
}

/* A token is a byte below 128, its count of literal bytes less one, and these; or 128 + length - 3, and a distance. */
ALONE static u32 pack(u32 count) {
  u32 out = 0, at = 0, literals = 0, start = 0;
  for (u32 i = 0; i < 4096; i++) heads[i] = NONE;
  while (at < count) {
    u32 length = 0, from = NONE;
    if (at + 3 <= count) {
      u32 hash = hash_at(at);
      from = heads[hash], heads[hash] = at;
      if (from != NONE && at - from < 65536)
        while (length < 130 && at + length < count && plain[from + length] == plain[at + length]) length++;
    }
    if (length >= 3) {
      packed_bytes[out++] = (u8)(128 + length - 3);
      packed_bytes[out++] = (u8)(at - from), packed_bytes[out++] = (u8)((at - from) >> 8);
      at += length, literals = 0;
    } else {
      if (literals == 0 || literals == 128) start = out++, literals = 0;
      packed_bytes[start] = (u8)literals++;
      packed_bytes[out++] = plain[at++];
    }
  }
  return out;
}

ALONE static u32 unpack(u32 length) {
  u32 out = 0;
  for (u32 at = 0; at < length;) {
    u32 token = packed_bytes[at++];
    if (token < 128) {
      for (u32 i = 0; i <= token; i++) back[out++] = packed_bytes[at++];
    } else {
      u32 distance = packed_bytes[at] | (u32)packed_bytes[at + 1] << 8;
      at += 2;
      for (u32 i = 0; i < token - 125; i++, out++) back[out] = back[out - distance];
    }
  }
  return out;
}

/* The packed length, and above it FNV-1a of 32 bits of the packed bytes. */
EXPORT(packed) u64 packed(u32 count, u32 seed) {
  write_text(count, seed);
  u32 length = pack(count), hash = 2166136261u;
  for (u32 i = 0; i < length; i++) hash = (hash ^ packed_bytes[i]) * 16777619u;
  return (u64)hash << 32 | length;
}

EXPORT(round_trip) u32 round_trip(u32 count, u32 seed) {
  write_text(count, seed);
  u32 length = pack(count);
  if (unpack(length) != count) return 0;
  for (u32 i = 0; i < count; i++)
    if (plain[i] != back[i]) return 0;
  return 1;
}

/* The bytes of a run-length code of a picture of stripes. */
EXPORT(run_lengths) u32 run_lengths(u32 count, u32 seed) {
  for (u32 i = 0; i < count;) {
    u32 length = next_random(&seed) % 50 + 1;
    u8 shade = (u8)next_random(&seed);
    while (length-- && i < count) plain[i++] = shade;
  }
  u32 out = 0;
  for (u32 i = 0; i < count;) {
    u32 length = 1;
    while (i + length < count && length < 255 && plain[i + length] == plain[i]) length++;
    packed_bytes[out++] = (u8)length, packed_bytes[out++] = plain[i], i += length;
  }
  return out;
}
