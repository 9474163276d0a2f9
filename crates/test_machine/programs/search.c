/* Words in a text: Knuth-Morris-Pratt, Boyer-Moore-Horspool, Rabin-Karp, a plain search, and patterns with wildcards.
call count 0 20000 6 1
call count 1 20000 6 1
call count 2 20000 6 1
call count 3 20000 6 1
call count 0 9000 1 2
call wildcards 0
call wildcards 1
call wildcards 2
call wildcards 3
call periods 64
*/
#include "program.h"

static u8 text[32768], word[64];
static u32 border[65];

static void fill(u32 length, u32 letters, u32 seed) {
  for (u32 i = 0; i < length; i++) text[i] = (u8)('a' + (next_random(&seed) >> 5) % 3);
  for (u32 i = 0; i < letters; i++) word[i] = text[length / 2 + i];
}

static void borders(u32 letters) {
  border[0] = 0, border[1] = 0;
  for (u32 i = 1, kept = 0; i < letters; i++) {
    while (kept && word[i] != word[kept]) kept = border[kept];
    if (word[i] == word[kept]) kept++;
    border[i + 1] = kept;
  }
}

static u32 by_borders(u32 length, u32 letters) {
  u32 found = 0, matched = 0;
  borders(letters);
  for (u32 i = 0; i < length; i++) {
    while (matched && (matched == letters || text[i] != word[matched])) matched = border[matched];
    if (text[i] == word[matched]) matched++;
    found += matched == letters;
  }
  return found;
}

static u32 by_last_letter(u32 length, u32 letters) {
  static u32 skip[256];
  u32 found = 0;
  for (u32 i = 0; i < 256; i++) skip[i] = letters;
  for (u32 i = 0; i + 1 < letters; i++) skip[word[i]] = letters - 1 - i;
  for (u32 at = 0; at + letters <= length; at += skip[text[at + letters - 1]]) {
    u32 i = letters;
    while (i && text[at + i - 1] == word[i - 1]) i--;
    found += i == 0;
  }
  return found;
}

static u32 by_hash(u32 length, u32 letters) {
  u32 wanted = 0, hash = 0, top = 1, found = 0;
  for (u32 i = 0; i < letters; i++) wanted = wanted * 257 + word[i], hash = hash * 257 + text[i], top *= i ? 257 : 1;
  for (u32 at = 0;; at++) {
    if (hash == wanted) {
      u32 i = 0;
      while (i < letters && text[at + i] == word[i]) i++;
      found += i == letters;
    }
    if (at + letters >= length) return found;
    hash = (hash - text[at] * top) * 257 + text[at + letters];
  }
}

static u32 plainly(u32 length, u32 letters) {
  u32 found = 0;
  for (u32 at = 0; at + letters <= length; at++) {
    u32 i = 0;
    while (i < letters && text[at + i] == word[i]) i++;
    found += i == letters;
  }
  return found;
}

EXPORT(count) u32 count(u32 way, u32 length, u32 letters, u32 seed) {
  fill(length, letters, seed);
  switch (way) {
    case 0: return by_borders(length, letters);
    case 1: return by_last_letter(length, letters);
    case 2: return by_hash(length, letters);
    case 3: return plainly(length, letters);
    default: return 0;
  }
}

/* Whether a text is matched: `?` is one letter, `*` any number, `+` behind a letter one or more of it. */
ALONE static u32 matches(const char *pattern, const char *subject) {
  if (!*pattern) return !*subject;
  if (*pattern == '*') {
    do
      if (matches(pattern + 1, subject)) return 1;
    while (*subject++);
    return 0;
  }
  if (!*subject || (*pattern != '?' && *pattern != *subject)) return 0;
  if (pattern[1] == '+') return matches(pattern, subject + 1) || matches(pattern + 2, subject + 1);
  return matches(pattern + 1, subject + 1);
}

EXPORT(wildcards) u32 wildcards(u32 which) {
  static const char *const patterns[] = {"*a*b*c*d", "a+b+c?*", "?*?*?*z", "*ab*ab*ab*ab*"};
  static const char *const subjects[] = {"xxaxxbxxcxxd", "aaaabbbcd", "abcdefghijklmnopq", "ababababab", "", "dcba", "aabbccddz"};
  u32 bits = 0;
  for (u32 i = 0; i < 7; i++) bits |= matches(patterns[which], subjects[i]) << i;
  return bits;
}

/* The least period of a word of Fibonacci, cut at so many letters. */
EXPORT(periods) u32 periods(u32 letters) {
  u32 length = 2, before = 1;
  word[0] = 'a', word[1] = 'b';
  while (length < letters) {
    u32 longer = length + before;
    for (u32 i = length; i < longer && i < letters; i++) word[i] = word[i - length];
    before = length, length = longer;
  }
  borders(letters);
  return letters - border[letters];
}
