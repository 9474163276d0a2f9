// Loaded before the C library, this refuses requests for memory: those whose numbers, counted from 1 over all threads, stand in
// REFUSE_AT, one behind another with commas between. The size of each that is refused is a line of the file REFUSED.
#include <errno.h>
#include <fcntl.h>
#include <stdio.h>
#include <stdlib.h>
#include <unistd.h>

extern void *__libc_malloc(size_t size);
extern void *__libc_realloc(void *old, size_t size);
extern void *__libc_calloc(size_t count, size_t size);
extern void *__libc_memalign(size_t alignment, size_t size);

enum { MOST = 8 };
static long wanted[MOST];
static int is_read = 0;
static long requests = 0;

// The variables of the environment are read at the first request, when there is one thread alone.
static void read_wanted(void) {
    is_read = 1;
    const char *text = getenv("REFUSE_AT");
    for (int at = 0; text != NULL && *text != 0 && at < MOST; at += 1) {
        char *end;
        wanted[at] = strtol(text, &end, 10);
        text = *end == ',' ? end + 1 : end;
    }
}

static void note(size_t size) {
    char line[24];
    int length = snprintf(line, sizeof line, "%zu\n", size);
    int file = open(getenv("REFUSED"), O_CREAT | O_APPEND | O_WRONLY, 0600);
    if (file < 0 || write(file, line, length) != length) abort();
    close(file);
}

static int refused(size_t size) {
    if (!is_read) read_wanted();
    long number = __atomic_add_fetch(&requests, 1, __ATOMIC_SEQ_CST);
    for (int at = 0; at < MOST; at += 1) {
        if (wanted[at] == number) {
            note(size);
            errno = ENOMEM;
            return 1;
        }
    }
    return 0;
}

void *malloc(size_t size) { return refused(size) ? NULL : __libc_malloc(size); }
void *realloc(void *old, size_t size) { return refused(size) ? NULL : __libc_realloc(old, size); }
void *calloc(size_t count, size_t size) { return refused(count * size) ? NULL : __libc_calloc(count, size); }
void *memalign(size_t alignment, size_t size) { return refused(size) ? NULL : __libc_memalign(alignment, size); }
void *aligned_alloc(size_t alignment, size_t size) { return memalign(alignment, size); }

int posix_memalign(void **to, size_t alignment, size_t size) {
    *to = memalign(alignment, size);
    return *to == NULL ? ENOMEM : 0;
}
