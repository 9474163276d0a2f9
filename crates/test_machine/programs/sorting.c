/* Quicksort, heapsort, merge sort, radix sort and shell sort of the same generated numbers; a result is a sum over places.
call sort 0 3000 1
call sort 1 3000 1
call sort 2 3000 1
call sort 3 3000 1
call sort 4 3000 1
call sort 0 2 9
call sort 5 100 1
call selected 2000 77 1000
*/
#include "program.h"

static u32 items[4096], other[4096];

static void exchange(u32 i, u32 j) {
  u32 kept = items[i];
  items[i] = items[j], items[j] = kept;
}

/* The greater part is left to the loop, so that calls nest no deeper than the binary digits of the count. */
ALONE static void quicksort(s32 low, s32 high) {
  while (low < high) {
    u32 pivot = items[low + (high - low) / 2];
    s32 i = low, j = high;
    while (i <= j) {
      while (items[i] < pivot) i++;
      while (items[j] > pivot) j--;
      if (i <= j) exchange(i++, j--);
    }
    if (j - low < high - i) quicksort(low, j), low = i;
    else quicksort(i, high), high = j;
  }
}

static void sift(u32 root, u32 count) {
  for (u32 child; (child = 2 * root + 1) < count; root = child) {
    if (child + 1 < count && items[child] < items[child + 1]) child++;
    if (items[root] >= items[child]) return;
    exchange(root, child);
  }
}

static void heapsort(u32 count) {
  for (u32 i = count / 2; i-- > 0;) sift(i, count);
  for (u32 end = count; end-- > 1;) exchange(0, end), sift(0, end);
}

ALONE static void merge_sort(u32 low, u32 high) {
  if (high - low < 2) return;
  u32 middle = (low + high) / 2, i = low, j = middle;
  merge_sort(low, middle), merge_sort(middle, high);
  for (u32 k = low; k < high; k++) other[k] = i < middle && (j == high || items[i] <= items[j]) ? items[i++] : items[j++];
  for (u32 k = low; k < high; k++) items[k] = other[k];
}

static void radix_sort(u32 count) {
  static u32 places[256];
  for (u32 shift = 0; shift < 32; shift += 8) {
    for (u32 i = 0; i < 256; i++) places[i] = 0;
    for (u32 i = 0; i < count; i++) places[items[i] >> shift & 255]++;
    for (u32 i = 0, sum = 0; i < 256; i++) {
      u32 here = places[i];
      places[i] = sum, sum += here;
    }
    for (u32 i = 0; i < count; i++) other[places[items[i] >> shift & 255]++] = items[i];
    for (u32 i = 0; i < count; i++) items[i] = other[i];
  }
}

static void shell_sort(u32 count) {
  for (u32 gap = count / 2; gap > 0; gap = gap == 2 ? 1 : gap * 5 / 11)
    for (u32 i = gap; i < count; i++) {
      u32 kept = items[i], j = i;
      for (; j >= gap && items[j - gap] > kept; j -= gap) items[j] = items[j - gap];
      items[j] = kept;
    }
}

static void fill(u32 count, u32 seed) {
  for (u32 i = 0; i < count; i++) items[i] = next_random(&seed);
}

/* 0 where the items aren't in order. */
EXPORT(sort) u64 sort(u32 way, u32 count, u32 seed) {
  fill(count, seed);
  switch (way) {
    case 0: quicksort(0, (s32)count - 1); break;
    case 1: heapsort(count); break;
    case 2: merge_sort(0, count); break;
    case 3: radix_sort(count); break;
    case 4: shell_sort(count); break;
  }
  u64 sum = 1;
  for (u32 i = 0; i < count; i++) {
    if (i > 0 && items[i - 1] > items[i]) return 0;
    sum += (u64)items[i] * (i + 1);
  }
  return sum;
}

/* The item that stands at a place once all are in order (quickselect). */
EXPORT(selected) u32 selected(u32 count, u32 seed, u32 place) {
  fill(count, seed);
  s32 low = 0, high = (s32)count - 1, wanted = (s32)place;
  while (low < high) {
    u32 pivot = items[wanted];
    s32 i = low, j = high;
    while (i <= j) {
      while (items[i] < pivot) i++;
      while (pivot < items[j]) j--;
      if (i <= j) exchange(i++, j--);
    }
    if (j < wanted) low = i;
    if (wanted < i) high = j;
  }
  return items[wanted];
}
