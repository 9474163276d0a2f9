/* Sorts the inputs and prints them, the least first. docs/guide/compiling-libc.md says how it is compiled. */
#include <stdio.h>
#include <stdlib.h>

__attribute__((import_module("host"), import_name("input"))) unsigned long long input(unsigned index);

static int compare(const void *left, const void *right) {
  long long a = *(const long long *)left, b = *(const long long *)right;
  return (a > b) - (a < b);
}

/* The first input says how many follow. */
__attribute__((export_name("run"))) int run(void) {
  unsigned count = input(0);
  long long *words = malloc(count * sizeof *words);
  if (!words)
    return -1;
  for (unsigned at = 0; at < count; at++)
    words[at] = input(1 + at);
  qsort(words, count, sizeof *words, compare);
  for (unsigned at = 0; at < count; at++)
    printf("%u: %lld\n", at, words[at]);
  fflush(stdout);
  free(words);
  return count;
}
