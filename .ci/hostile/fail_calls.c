// Loaded before the C library, this makes calls fail: the read, write or seek whose number, counted from 1 over all threads, stands in
// FAIL_AT, and as many behind it as FAIL_MORE says. Where FAIL_IN is a file's path its calls alone are counted. A line of the file FAILED
// says for each which call it was, and of which file.
#include <errno.h>
#include <fcntl.h>
#include <stdio.h>
#include <stdlib.h>
#include <string.h>
#include <sys/syscall.h>
#include <sys/types.h>
#include <unistd.h>

static long calls = 0;

static void find(int file, char path[4096]) {
    char link[40];
    snprintf(link, sizeof link, "/proc/self/fd/%d", file);
    ssize_t length = readlink(link, path, 4095);
    path[length < 0 ? 0 : length] = 0;
}

static void note(const char *kind, int file) {
    char path[4096], line[5000];
    find(file, path);
    int count = snprintf(line, sizeof line, "%s %d %s\n", kind, file, path);
    int to = open(getenv("FAILED"), O_CREAT | O_APPEND | O_WRONLY, 0600);
    if (to < 0 || syscall(SYS_write, to, line, count) != count) abort();
    close(to);
}

static int is_of(int file, const char *wanted) {
    char path[4096];
    find(file, path);
    return strcmp(path, wanted) == 0;
}

static long number_in(const char *name) {
    const char *digits = getenv(name);
    return digits == NULL ? 0 : atol(digits);
}

static int fails(const char *kind, int file) {
    const char *wanted = getenv("FAIL_IN");
    if (wanted != NULL && !is_of(file, wanted)) return 0;
    long at = number_in("FAIL_AT"), number = __atomic_add_fetch(&calls, 1, __ATOMIC_SEQ_CST);
    if (at == 0 || number < at || number > at + number_in("FAIL_MORE")) return 0;
    note(kind, file);
    errno = EIO;
    return 1;
}

ssize_t read(int file, void *into, size_t size) { return fails("read", file) ? -1 : syscall(SYS_read, file, into, size); }
ssize_t write(int file, const void *from, size_t size) { return fails("write", file) ? -1 : syscall(SYS_write, file, from, size); }
off_t lseek(int file, off_t to, int from) { return fails("seek", file) ? -1 : syscall(SYS_lseek, file, to, from); }
