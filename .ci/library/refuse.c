/* Between the archive and the C library: counts the blocks of memory that are out, and refuses the n-th request from now on, where
 * that was asked. */
#include <stddef.h>

extern void *__real_malloc(size_t size);
extern void *__real_realloc(void *old, size_t size);
extern void __real_free(void *old);

static size_t left, refused, blocks;

/* The n-th request from now on is refused; 0 refuses none. */
void refuse_at(size_t n) {
  left = n;
  refused = 0;
}

/* How many were refused since. */
size_t refused_count(void) { return refused; }

/* How many blocks were asked for and not given back. */
size_t blocks_out(void) { return blocks; }

static int is_refused(void) {
  if (left == 0) return 0;
  left -= 1;
  if (left != 0) return 0;
  refused += 1;
  return 1;
}

static void *taken(void *block) {
  blocks += block != NULL;
  return block;
}

void *__wrap_malloc(size_t size) { return is_refused() ? NULL : taken(__real_malloc(size)); }

void *__wrap_realloc(void *old, size_t size) {
  if (is_refused()) return NULL;
  return old == NULL ? taken(__real_realloc(old, size)) : __real_realloc(old, size);
}

void __wrap_free(void *old) {
  blocks -= old != NULL;
  __real_free(old);
}
