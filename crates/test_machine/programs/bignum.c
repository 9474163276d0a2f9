/* Numbers of many digits: factorials and Fibonacci numbers in base 10^9, 2^n in decimal, and digits of e.
call factorial_digits 100
call factorial_sum 100
call factorial_sum 250
call fibonacci_low 300
call fibonacci_digits 1000
call power_sum 1000
call e_digits 100
call square_root 2 40
*/
#include "program.h"

#define PARTS 256
#define BASE 1000000000u
static u32 number[PARTS], other[PARTS];
static u32 parts, other_parts;

static void set(u32 value) { number[0] = value, parts = 1; }

static void times(u32 factor) {
  u64 carry = 0;
  for (u32 i = 0; i < parts; i++) {
    carry += (u64)number[i] * factor;
    number[i] = (u32)(carry % BASE), carry /= BASE;
  }
  if (carry) number[parts++] = (u32)carry;
}

static u32 digits(void) {
  u32 count = 9 * (parts - 1);
  for (u32 top = number[parts - 1]; top; top /= 10) count++;
  return count;
}

static u32 sum(void) {
  u32 result = 0;
  for (u32 i = 0; i < parts; i++)
    for (u32 part = number[i]; part; part /= 10) result += part % 10;
  return result;
}

static void factorial(u32 n) {
  set(1);
  for (u32 i = 2; i <= n; i++) times(i);
}

static void fibonacci(u32 n) {
  set(0), other[0] = 1, other_parts = 1;
  for (u32 step = 0; step < n; step++) {
    u32 carry = 0;
    for (u32 i = 0; i < other_parts; i++) {
      u32 old = other[i], total = old + (i < parts ? number[i] : 0) + carry;
      carry = total >= BASE, other[i] = carry ? total - BASE : total, number[i] = old;
    }
    parts = other_parts;
    if (carry) other[other_parts++] = 1;
  }
}

EXPORT(factorial_digits) u32 factorial_digits(u32 n) {
  factorial(n);
  return digits();
}

EXPORT(factorial_sum) u32 factorial_sum(u32 n) {
  factorial(n);
  return sum();
}

/* The last 18 digits. */
EXPORT(fibonacci_low) u64 fibonacci_low(u32 n) {
  fibonacci(n);
  return (u64)(parts > 1 ? number[1] : 0) * BASE + number[0];
}

EXPORT(fibonacci_digits) u32 fibonacci_digits(u32 n) {
  fibonacci(n);
  return digits();
}

EXPORT(power_sum) u32 power_sum(u32 n) {
  set(1);
  for (u32 i = 0; i < n; i++) times(2);
  return sum();
}

/* The sum of so many decimal places of e, by the spigot of Rabinowitz and Wagon. */
EXPORT(e_digits) u32 e_digits(u32 places) {
  static u32 rests[256];
  u32 terms = places / 2 + 30, total = 0;
  for (u32 i = 0; i < terms; i++) rests[i] = 1;
  for (u32 place = 0; place < places; place++) {
    u32 carry = 0;
    for (u32 i = terms; i-- > 0;) {
      u32 value = rests[i] * 10 + carry;
      rests[i] = value % (i + 2), carry = value / (i + 2);
    }
    total = total * 7 + carry;
  }
  return total;
}

/* So many decimal digits of a square root, one at a time over lists of digits; the result mixes them. */
EXPORT(square_root) u64 square_root(u32 of, u32 places) {
  static u8 rest[128], root[128], trial[128];
  u64 mixed = 0;
  for (u32 i = 0; i < 128; i++) rest[i] = root[i] = 0;
  for (u32 step = 0; step < places; step++) {
    for (u32 i = 127; i > 1; i--) rest[i] = rest[i - 2];
    rest[1] = step ? 0 : (u8)(of / 10), rest[0] = step ? 0 : (u8)(of % 10);
    u32 digit = 9;
    for (;; digit--) {
      u32 carry = 0;
      for (u32 i = 0; i < 127; i++) {
        carry += (i ? root[i - 1] * 2 : 0) * digit + (i ? 0 : digit * digit);
        trial[i] = (u8)(carry % 10), carry /= 10;
      }
      s32 order = 0;
      for (u32 i = 127; i-- > 0 && order == 0;) order = (s32)rest[i] - (s32)trial[i];
      if (order >= 0) break;
    }
    s32 borrow = 0;
    for (u32 i = 0; i < 127; i++) {
      borrow += (s32)rest[i] - (s32)trial[i];
      rest[i] = (u8)(borrow < 0 ? borrow + 10 : borrow), borrow = borrow < 0 ? -1 : 0;
    }
    for (u32 i = 127; i > 0; i--) root[i] = root[i - 1];
    root[0] = (u8)digit;
    mixed = mixed * 11 + digit;
  }
  return mixed;
}
