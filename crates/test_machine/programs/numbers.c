/* Number theory: greatest common divisors, powers modulo a number, Miller-Rabin, inverses, Pollard's rho, roots, Collatz.
call gcd 1071 462
call gcd 18446744073709551615 4294967295
call binary_gcd 9223372036854775808 6442450944
call power 3 1000000 1000000007
call power 2 18446744073709551614 18446744073709551557
call is_prime 18446744073709551557
call is_prime 18446744073709551556
call is_prime 3215031751
call inverse 3 11
call inverse 123456789 1000000007
call factor 10403
call factor 1000036000099
call root 18446744073709551615
call collatz 27
call longest_collatz 2000
call primes_between 1000000000000 64
call divided -9223372036854775807 10
*/
#include "program.h"

EXPORT(gcd) u64 gcd(u64 a, u64 b) {
  while (b) {
    u64 rest = a % b;
    a = b, b = rest;
  }
  return a;
}

EXPORT(binary_gcd) u64 binary_gcd(u64 a, u64 b) {
  if (!a || !b) return a | b;
  u32 twos = (u32)__builtin_ctzll(a | b);
  a >>= __builtin_ctzll(a);
  while (b) {
    b >>= __builtin_ctzll(b);
    if (a > b) {
      u64 kept = a;
      a = b, b = kept;
    }
    b -= a;
  }
  return a << twos;
}

/* a * b modulo m, with a and b below m, by doubling. */
static u64 times(u64 a, u64 b, u64 m) {
  if ((a | b) >> 32 == 0) return a * b % m;
  u64 result = 0;
  for (; b; b >>= 1) {
    if (b & 1) result = result >= m - a ? result - (m - a) : result + a;
    a = a >= m - a ? a - (m - a) : a + a;
  }
  return result;
}

EXPORT(power) u64 power(u64 base, u64 exponent, u64 m) {
  u64 result = 1 % m;
  for (base %= m; exponent; exponent >>= 1) {
    if (exponent & 1) result = times(result, base, m);
    base = times(base, base, m);
  }
  return result;
}

EXPORT(is_prime) u32 is_prime(u64 n) {
  static const u32 bases[7] = {2, 325, 9375, 28178, 450775, 9780504, 1795265022};
  if (n < 2) return 0;
  for (u32 i = 2; i < 40; i++)
    if (n % i == 0) return n == i;
  u32 twos = (u32)__builtin_ctzll(n - 1);
  u64 odd = (n - 1) >> twos;
  for (u32 i = 0; i < 7; i++) {
    u64 x = power(bases[i], odd, n);
    if (x < 2 || x == n - 1) continue;
    u32 left = twos - 1;
    while (left && (x = times(x, x, n)) != n - 1) left--;
    if (!left) return 0;
  }
  return 1;
}

/* By the extended algorithm of Euclid, 0 where there is none. */
EXPORT(inverse) u64 inverse(s64 a, s64 m) {
  s64 r = m, next_r = a % m, t = 0, next_t = 1;
  while (next_r) {
    s64 quotient = r / next_r, rest = r - quotient * next_r, turn = t - quotient * next_t;
    r = next_r, next_r = rest, t = next_t, next_t = turn;
  }
  return r == 1 ? (u64)(t < 0 ? t + m : t) : 0;
}

/* A proper factor of an odd composite number, by Pollard's rho. */
EXPORT(factor) u64 factor(u64 n) {
  for (u64 add = 1;; add++) {
    u64 slow = 2, fast = 2, found = 1;
    while (found == 1) {
      slow = (times(slow, slow, n) + add) % n;
      fast = (times(fast, fast, n) + add) % n;
      fast = (times(fast, fast, n) + add) % n;
      found = gcd(slow > fast ? slow - fast : fast - slow, n);
    }
    if (found != n) return found;
  }
}

EXPORT(root) u32 root(u64 n) {
  u32 result = 0;
  for (u32 bit = 1u << 31; bit; bit >>= 1) {
    u64 trial = (u64)(result | bit);
    if (trial * trial <= n) result |= bit;
  }
  return result;
}

EXPORT(collatz) u32 collatz(u64 n) {
  u32 steps = 0;
  for (; n != 1; steps++) n = n & 1 ? 3 * n + 1 : n / 2;
  return steps;
}

/* The start below the limit with the longest way, above it the way's length. */
EXPORT(longest_collatz) u64 longest_collatz(u32 limit) {
  u32 best = 1, most = 0;
  for (u32 n = 1; n < limit; n++) {
    u32 steps = collatz(n);
    if (steps > most) most = steps, best = n;
  }
  return (u64)most << 32 | best;
}

EXPORT(primes_between) u32 primes_between(u64 low, u32 count) {
  u32 found = 0;
  for (u32 i = 0; i < count; i++) found += is_prime(low + i);
  return found;
}

/* Signed quotient and rest, mixed. */
EXPORT(divided) s64 divided(s64 a, s64 b) { return (s64)((u64)(a / b) * 1000003u + (u64)(a % b)); }
