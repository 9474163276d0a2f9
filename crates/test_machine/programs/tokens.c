/* State machines with many cases: a reader of JSON, tokens of a small language, words and lines, numbers, roman numerals.
call json 0
call json 1
call json 2
call json 3
call json 4
call words
call tokens
call roman_round_trip 3999
call dense 5000 3
call utf8 2000 7
*/
#include "program.h"

static const char *const documents[] = {
    "{\"pages\": [1, 2, 3, -40.5e+10], \"shared\": true, \"name\": \"frame \\\"a\\\" \\u00e9\", \"none\": null, \"o\": {}}",
    "[[[[[[[[[[]]]]]]]]]]", "{\"a\": [1, 2,]}", "[1, 01]", "  \"text\\x\" "};
static const char source[] =
    "fn step(mem: &mut [u8], at: usize) -> Option<u8> { let x = mem[at + 0x1F] as u32 * 3; // twice\n"
    "if x >= 10 && at != 7 || x <= 2 { return None; } /* all\n of it */ \"str\\\"ing\" 'c' Some(x << 2) }\n";

enum State { VALUE, FIRST_VALUE, FIRST_KEY, KEY, COLON, AFTER, DONE };

static const char *skip_text(const char *at) {
  for (;;) switch (*at++) {
      case 0: return 0;
      case '"': return at;
      case '\\':
        switch (*at++) {
          case '"': case '\\': case '/': case 'b': case 'f': case 'n': case 'r': case 't': break;
          case 'u':
            for (u32 i = 0; i < 4; i++, at++) switch (*at) {
                case '0' ... '9': case 'a' ... 'f': case 'A' ... 'F': break;
                default: return 0;
              }
            break;
          default: return 0;
        }
    }
}

static const char *skip_digits(const char *at) {
  if (*at < '0' || *at > '9') return 0;
  while (*at >= '0' && *at <= '9') at++;
  return at;
}

static const char *skip_number(const char *at) {
  if (*at == '-') at++;
  if (*at == '0') at++;
  else if (!(at = skip_digits(at))) return 0;
  if (*at == '.' && !(at = skip_digits(at + 1))) return 0;
  if (*at == 'e' || *at == 'E') {
    at++;
    if (*at == '+' || *at == '-') at++;
    at = skip_digits(at);
  }
  return at;
}

static const char *skip_word(const char *at, const char *word) {
  while (*word)
    if (*at++ != *word++) return 0;
  return at;
}

/* A value that holds no others. */
static const char *skip_plain(const char *at) {
  switch (*at) {
    case '"': return skip_text(at + 1);
    case 't': return skip_word(at, "true");
    case 'f': return skip_word(at, "false");
    case 'n': return skip_word(at, "null");
    case '-': case '0' ... '9': return skip_number(at);
    default: return 0;
  }
}

/* The number of values, or -1 where the text is no document. */
EXPORT(json) s32 json(u32 which) {
  static u8 open[64];
  const char *at = documents[which];
  u32 depth = 0, state = VALUE;
  s32 values = 0;
  while (at) {
    while (*at == ' ' || *at == '\n') at++;
    if (*at == 0) return state == DONE ? values : -1;
    switch (state) {
      case FIRST_VALUE:
        if (*at == ']') {
          at++, depth--, state = depth ? AFTER : DONE;
          break;
        } /* fall through */
      case VALUE:
        values++;
        if (*at == '{' || *at == '[') state = (open[depth++] = (u8)*at++) == '{' ? FIRST_KEY : FIRST_VALUE;
        else at = skip_plain(at), state = depth ? AFTER : DONE;
        break;
      case FIRST_KEY:
        if (*at == '}') {
          at++, depth--, state = depth ? AFTER : DONE;
          break;
        } /* fall through */
      case KEY:
        if (*at++ != '"') return -1;
        at = skip_text(at), state = COLON;
        break;
      case COLON:
        if (*at++ != ':') return -1;
        state = VALUE;
        break;
      case AFTER:
        if (*at == ',') at++, state = open[depth - 1] == '{' ? KEY : VALUE;
        else if (*at == (open[depth - 1] == '{' ? '}' : ']')) at++, depth--, state = depth ? AFTER : DONE;
        else return -1;
        break;
      case DONE: return -1;
    }
  }
  return -1;
}

/* Lines, words and letters of the source, as wc counts them. */
EXPORT(words) u32 words(void) {
  u32 lines = 0, count = 0, letters = 0, inside = 0;
  for (const char *at = source; *at; at++, letters++) switch (*at) {
      case '\n': lines++; /* fall through */
      case ' ': inside = 0; break;
      default: count += !inside, inside = 1;
    }
  return lines << 24 | count << 12 | letters;
}

/* FNV-1a of the kinds of tokens: names, numbers, texts, signs of one and of two letters. */
EXPORT(tokens) u64 tokens(void) {
  u64 mixed = 14695981039346656037ull;
  for (const char *at = source; *at;) {
    const char *start = at;
    u32 kind = 0;
    switch (*at) {
      case ' ': case '\n': at++; continue;
      case 'a' ... 'z': case 'A' ... 'Z': case '_':
        while ((*at >= 'a' && *at <= 'z') || (*at >= 'A' && *at <= 'Z') || (*at >= '0' && *at <= '9') || *at == '_') at++;
        kind = 1;
        break;
      case '0' ... '9':
        while ((*at >= '0' && *at <= '9') || (*at | 32) == 'x' || ((*at | 32) >= 'a' && (*at | 32) <= 'f')) at++;
        kind = 2;
        break;
      case '"': case '\'':
        for (at++; *at != *start; at++)
          if (*at == '\\') at++;
        at++, kind = 3;
        break;
      case '/':
        if (at[1] == '/') {
          while (*at != '\n') at++;
          continue;
        }
        if (at[1] == '*') {
          for (at += 2; at[0] != '*' || at[1] != '/'; at++) {}
          at += 2;
          continue;
        }
        at++, kind = 4;
        break;
      case '-': case '>': case '=': case '!': case '<': case '&': case '|':
        at++;
        if (*at == '=' || *at == '>' || *at == '<' || (*at == *start && *at != '=')) at++;
        kind = 5;
        break;
      default: at++, kind = 6;
    }
    mixed = (mixed ^ kind) * 1099511628211ull;
    mixed = (mixed ^ (u64)(at - start)) * 1099511628211ull;
  }
  return mixed;
}

/* How many numbers from 1 on come back from their roman numerals. */
EXPORT(roman_round_trip) u32 roman_round_trip(u32 last) {
  static const u16 sizes[13] = {1000, 900, 500, 400, 100, 90, 50, 40, 10, 9, 5, 4, 1};
  static const char letters[] = "M CMD CDC XCL XLX IXV IVI ";
  u32 same = 0;
  for (u32 n = 1; n <= last; n++) {
    char text[24];
    u32 length = 0, rest = n, value = 0, before = 0;
    for (u32 i = 0; i < 13; i++)
      for (; rest >= sizes[i]; rest -= sizes[i]) {
        text[length++] = letters[2 * i];
        if (letters[2 * i + 1] != ' ') text[length++] = letters[2 * i + 1];
      }
    while (length) {
      u32 size = 0;
      switch (text[--length]) {
        case 'I': size = 1; break;
        case 'V': size = 5; break;
        case 'X': size = 10; break;
        case 'L': size = 50; break;
        case 'C': size = 100; break;
        case 'D': size = 500; break;
        case 'M': size = 1000; break;
      }
      value += size < before ? -size : size, before = size > before ? size : before;
    }
    same += value == n;
  }
  return same;
}

/* A machine of 24 states, each with its own work. */
EXPORT(dense) u64 dense(u32 steps, u32 seed) {
  u64 x = seed;
  u32 state = 0;
  while (steps--) switch (state) {
      case 0: x += 3, state = x & 1 ? 7 : 12; break;
      case 1: x *= 5, state = 2; break;
      case 2: x ^= x >> 7, state = 3 + (u32)(x & 7); break;
      case 3: x -= 11, state = 20; break;
      case 4: x = ~x, state = 5; break;
      case 5: x <<= 1, state = 23; break;
      case 6: x = x % 1000003 + 1, state = 9; break;
      case 7: x |= 0x100, state = 8; break;
      case 8: x = x << 9 | x >> 55, state = 1; break;
      case 9: x += steps, state = (u32)(x % 24); break;
      case 10: x ^= 0xffff0000ffff, state = 11; break;
      case 11: x = (u64)(u32)x * 2654435761u, state = 13; break;
      case 12: x >>= 1, state = 14; break;
      case 13: x += x << 3, state = 15 + (u32)(x & 3); break;
      case 14: x = (u64)(s64)(s32)x, state = 19; break;
      case 15: x -= x >> 5, state = 0; break;
      case 16: x ^= 0x5555, state = 6; break;
      case 17: x = x / 3, state = 4; break;
      case 18: x = (u64)__builtin_popcountll(x) + x, state = 21; break;
      case 19: x = (u64)(u8)x << 40 ^ x, state = 22; break;
      case 20: x *= x | 1, state = 10; break;
      case 21: x += 0x123456789abcdef, state = 16; break;
      case 22: x ^= x << 13, state = 17; break;
      case 23: x ^= x >> 17, state = 18; break;
    }
  return x ^ (u64)state << 59;
}

/* Writes scalar values in UTF-8 and reads them back; how many came back, and the number of bytes above. */
EXPORT(utf8) u64 utf8(u32 count, u32 seed) {
  u64 same = 0, bytes = 0;
  for (u32 i = 0; i < count; i++) {
    u8 unit[4];
    u32 drawn = next_random(&seed), scalar = drawn % (drawn & 0x4000000 ? 0x800 : 0x10f800);
    if (scalar >= 0xd800) scalar += 0x800;
    u32 length = scalar < 0x80 ? 1 : scalar < 0x800 ? 2 : scalar < 0x10000 ? 3 : 4, read = 0;
    for (u32 k = length; k-- > 1;) unit[k] = (u8)(0x80 | (scalar >> (6 * (length - 1 - k)) & 63));
    unit[0] = (u8)(length == 1 ? scalar : (0xf00u >> length & 0xf0) | scalar >> (6 * (length - 1)));
    switch (unit[0] >> 4) {
      case 0 ... 7: read = unit[0]; break;
      case 12: case 13: read = (unit[0] & 31u) << 6 | (unit[1] & 63u); break;
      case 14: read = (unit[0] & 15u) << 12 | (unit[1] & 63u) << 6 | (unit[2] & 63u); break;
      case 15: read = (unit[0] & 7u) << 18 | (unit[1] & 63u) << 12 | (unit[2] & 63u) << 6 | (unit[3] & 63u); break;
    }
    same += read == scalar, bytes += length;
  }
  return bytes << 32 | same;
}
