// Loaded before the C library, this refuses one request for memory: the one whose number stands in REFUSE_AT, counted from 1.
// The file that REFUSED names is made when it does.
#include <errno.h>
#include <fcntl.h>
#include <stdlib.h>
#include <unistd.h>

extern void *__libc_malloc(size_t size);
extern void *__libc_realloc(void *old, size_t size);
extern void *__libc_calloc(size_t count, size_t size);
extern void *__libc_memalign(size_t alignment, size_t size);

static long requests = 0;

static int refused(void) {
    const char *at = getenv("REFUSE_AT");
    requests += 1;
    if (at == NULL || atol(at) != requests) return 0;
    int file = open(getenv("REFUSED"), O_CREAT | O_WRONLY, 0600);
    if (file >= 0) close(file);
    errno = ENOMEM;
    return 1;
}

void *malloc(size_t size) { return refused() ? NULL : __libc_malloc(size); }
void *realloc(void *old, size_t size) { return refused() ? NULL : __libc_realloc(old, size); }
void *calloc(size_t count, size_t size) { return refused() ? NULL : __libc_calloc(count, size); }
void *memalign(size_t alignment, size_t size) { return refused() ? NULL : __libc_memalign(alignment, size); }
void *aligned_alloc(size_t alignment, size_t size) { return memalign(alignment, size); }

int posix_memalign(void **to, size_t alignment, size_t size) {
    *to = memalign(alignment, size);
    return *to == NULL ? ENOMEM : 0;
}
