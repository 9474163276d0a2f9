/* Base64, base32 and hexadecimal, there and back; a result is FNV-1a of the text, or whether it came back.
call encoded 0 1
call encoded 1 1
call encoded 2000 42
call round_trip 2999 5
call hex_round_trip 1000 6
call base32 777 8
call refused 61
call refused 65
*/
#include "program.h"

static const char letters[] = "ABCDEFGHIJKLMNOPQRSTUVWXYZabcdefghijklmnopqrstuvwxyz0123456789+/";
static u8 data[4096], text[8192], back[4096];

static u64 fnv(const u8 *bytes, u32 count) {
  u64 hash = 14695981039346656037ull;
  for (u32 i = 0; i < count; i++) hash = (hash ^ bytes[i]) * 1099511628211ull;
  return hash;
}

static void fill(u32 count, u32 seed) {
  for (u32 i = 0; i < count; i++) data[i] = (u8)(next_random(&seed) >> 7);
}

static u32 encode(u32 count) {
  u32 out = 0, i = 0;
  for (; i + 2 < count; i += 3) {
    u32 three = (u32)data[i] << 16 | (u32)data[i + 1] << 8 | data[i + 2];
    text[out++] = (u8)letters[three >> 18], text[out++] = (u8)letters[three >> 12 & 63];
    text[out++] = (u8)letters[three >> 6 & 63], text[out++] = (u8)letters[three & 63];
  }
  if (i < count) {
    u32 last = (u32)data[i] << 16 | (i + 1 < count ? (u32)data[i + 1] << 8 : 0);
    text[out++] = (u8)letters[last >> 18], text[out++] = (u8)letters[last >> 12 & 63];
    text[out++] = (u8)(i + 1 < count ? letters[last >> 6 & 63] : '='), text[out++] = '=';
  }
  return out;
}

static s32 value_of(u8 letter) {
  switch (letter) {
    case 'A' ... 'Z': return letter - 'A';
    case 'a' ... 'z': return letter - 'a' + 26;
    case '0' ... '9': return letter - '0' + 52;
    case '+': return 62;
    case '/': return 63;
    default: return -1;
  }
}

/* The number of bytes, or -1 where a letter is none of the alphabet. */
static s32 decode(u32 length) {
  u32 bits = 0, kept = 0;
  s32 out = 0;
  for (u32 i = 0; i < length && text[i] != '='; i++) {
    s32 value = value_of(text[i]);
    if (value < 0) return -1;
    kept = kept << 6 | (u32)value, bits += 6;
    if (bits >= 8) bits -= 8, back[out++] = (u8)(kept >> bits);
  }
  return out;
}

EXPORT(encoded) u64 encoded(u32 count, u32 seed) {
  fill(count, seed);
  return fnv(text, encode(count));
}

EXPORT(round_trip) u32 round_trip(u32 count, u32 seed) {
  fill(count, seed);
  if (decode(encode(count)) != (s32)count) return 0;
  for (u32 i = 0; i < count; i++)
    if (data[i] != back[i]) return 0;
  return 1;
}

EXPORT(hex_round_trip) u32 hex_round_trip(u32 count, u32 seed) {
  fill(count, seed);
  for (u32 i = 0; i < count; i++) {
    text[2 * i] = (u8)"0123456789abcdef"[data[i] >> 4];
    text[2 * i + 1] = (u8)"0123456789abcdef"[data[i] & 15];
  }
  u32 same = 1;
  for (u32 i = 0; i < count; i++) {
    u32 high = text[2 * i], low = text[2 * i + 1];
    back[i] = (u8)((high - (high > '9' ? 'a' - 10 : '0')) << 4 | (low - (low > '9' ? 'a' - 10 : '0')));
    same &= back[i] == data[i];
  }
  return same;
}

EXPORT(base32) u64 base32(u32 count, u32 seed) {
  fill(count, seed);
  u64 kept = 0;
  u32 bits = 0, out = 0;
  for (u32 i = 0; i < count; i++) {
    kept = kept << 8 | data[i], bits += 8;
    while (bits >= 5) bits -= 5, text[out++] = (u8)"ABCDEFGHIJKLMNOPQRSTUVWXYZ234567"[kept >> bits & 31];
  }
  return fnv(text, out);
}

/* Whether a text of eight times one letter isn't decoded. */
EXPORT(refused) s32 refused(u32 letter) {
  for (u32 i = 0; i < 8; i++) text[i] = (u8)letter;
  return decode(8) < 0 ? -1 : 0;
}
