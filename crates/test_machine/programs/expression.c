/* Expressions: a parser by recursive descent that evaluates, one by precedence on stacks, and terms that are derived.
call evaluate 0
call evaluate 1
call evaluate 2
call evaluate 3
call evaluate 4
call by_stacks 0
call by_stacks 1
call by_stacks 3
call generated 40 1
call generated 200 9
call agree 30 3
call nested 20
*/
#include "program.h"

static const char *const texts[] = {"1+2*3-4", "(12+30)*(7-2)%100", "2*(3+(4*(5+(6*(7+8)))))-1000/7", "-(-5)+--3*~0&255|4096^7",
                                    "1<<10+2>>1", "1/0"};
static char made[2048];
static const char *at;
static u32 failed;

static s64 sum(void);

static s64 atom(void) {
  if (*at == '(') {
    at++;
    s64 value = sum();
    if (*at == ')') at++;
    else failed = 1;
    return value;
  }
  if (*at == '-') return at++, (s64)(0 - (u64)atom());
  if (*at == '~') return at++, ~atom();
  u64 value = 0;
  if (*at < '0' || *at > '9') failed = 1;
  while (*at >= '0' && *at <= '9') value = value * 10 + (u64)(*at++ - '0');
  return (s64)value;
}

static s64 apply(char operator, s64 left, s64 right) {
  switch (operator) {
    case '+': return (s64)((u64)left + (u64)right);
    case '-': return (s64)((u64)left - (u64)right);
    case '*': return (s64)((u64)left * (u64)right);
    case '/':
      if (right == 0 || right == -1) return failed |= right == 0, (s64)(0 - (u64)left);
      return left / right;
    case '%':
      if (right == 0 || right == -1) return failed |= right == 0, 0;
      return left % right;
    case '&': return left & right;
    case '|': return left | right;
    case '^': return left ^ right;
    case '<': return (s64)((u64)left << (right & 63));
    default: return left >> (right & 63);
  }
}

static u32 strength(char operator) {
  switch (operator) {
    case '|': return 1;
    case '^': return 2;
    case '&': return 3;
    case '<': case '>': return 4;
    case '+': case '-': return 5;
    case '*': case '/': case '%': return 6;
    default: return 0;
  }
}

static void skip(char operator) { at += operator == '<' || operator == '>' ? 2 : 1; }

ALONE static s64 climb(u32 least) {
  s64 left = atom();
  for (u32 here; (here = strength(*at)) >= least && here;) {
    char operator = *at;
    skip(operator);
    left = apply(operator, left, climb(here + 1));
  }
  return left;
}

static s64 sum(void) { return climb(1); }

/* The least number where the text is none. */
static s64 whole(const char *text) {
  at = text, failed = 0;
  s64 value = sum();
  return failed || *at ? (s64)(1ull << 63) : value;
}

EXPORT(evaluate) s64 evaluate(u32 which) { return whole(texts[which]); }

/* The same without recursion. A prefix operator waits under the operators, with a strength above all. */
static s64 shunted(const char *text) {
  static s64 values[256];
  static char waiting[256];
  u32 count = 0, height = 0, wants_value = 1;
  failed = 0;
  for (at = text;;) {
    if (wants_value && (*at == '-' || *at == '~')) {
      waiting[height++] = *at++ == '-' ? 'n' : 'c';
    } else if (wants_value && *at == '(') {
      waiting[height++] = *at++;
    } else if (wants_value) {
      if (*at < '0' || *at > '9') return (s64)(1ull << 63);
      u64 value = 0;
      while (*at >= '0' && *at <= '9') value = value * 10 + (u64)(*at++ - '0');
      values[count++] = (s64)value, wants_value = 0;
    } else {
      u32 here = strength(*at);
      while (height && waiting[height - 1] != '(') {
        char top = waiting[height - 1];
        if (top != 'n' && top != 'c' && strength(top) < here) break;
        height--;
        if (top == 'n') values[count - 1] = (s64)(0 - (u64)values[count - 1]);
        else if (top == 'c') values[count - 1] = ~values[count - 1];
        else count--, values[count - 1] = apply(top, values[count - 1], values[count]);
      }
      if (*at == ')' && height) at++, height--;
      else if (here) waiting[height++] = *at, skip(*at), wants_value = 1;
      else return failed || *at || height ? (s64)(1ull << 63) : values[0];
    }
  }
}

EXPORT(by_stacks) s64 by_stacks(u32 which) { return shunted(texts[which]); }

static u32 write_number(u32 out, u32 value) {
  if (value >= 10) out = write_number(out, value / 10);
  made[out] = (char)('0' + value % 10);
  return out + 1;
}

static void generate(u32 terms, u32 seed) {
  u32 out = 0, open = 0;
  for (u32 i = 0; i < terms; i++) {
    if (next_random(&seed) % 4 == 0 && open < 20) made[out++] = '(', open++;
    out = write_number(out, next_random(&seed) % 1000);
    if (open && next_random(&seed) % 3 == 0) made[out++] = ')', open--;
    if (i + 1 < terms) made[out++] = "+-*+&|^*"[next_random(&seed) % 8];
  }
  while (open--) made[out++] = ')';
  made[out] = 0;
}

EXPORT(generated) s64 generated(u32 terms, u32 seed) {
  generate(terms, seed);
  return whole(made);
}

/* Of so many texts, how often both ways agree. */
EXPORT(agree) u32 agree(u32 count, u32 seed) {
  u32 same = 0;
  for (u32 i = 0; i < count; i++) {
    generate(5 + i, seed + i);
    same += whole(made) == shunted(made);
  }
  return same;
}

EXPORT(nested) s64 nested(u32 depth) {
  u32 out = 0;
  for (u32 i = 0; i < depth; i++) made[out++] = '(';
  made[out++] = '7';
  for (u32 i = 0; i < depth; i++) made[out++] = ')', made[out++] = '+', made[out++] = '1';
  made[out] = 0;
  return whole(made);
}
