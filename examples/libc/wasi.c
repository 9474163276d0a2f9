/* What wasi-libc asks of WASI for printf, on this host: what is written to a file goes to the output, by `emit`. */
#include <wasi/api.h>

__attribute__((import_module("host"), import_name("emit"))) void emit(const void *bytes, unsigned length);

int __imported_wasi_snapshot_preview1_fd_write(int fd, int list, int count, int written) {
  const __wasi_ciovec_t *pieces = (const __wasi_ciovec_t *)list;
  unsigned all = 0;
  for (int k = 0; k < count; k++)
    for (unsigned at = 0, more; at < pieces[k].buf_len; at += more, all += more) {
      more = pieces[k].buf_len - at;
      if (more > 4096)
        more = 4096;
      emit(pieces[k].buf + at, more);
    }
  *(unsigned *)written = all;
  return 0;
}

int __imported_wasi_snapshot_preview1_fd_close(int fd) {
  return __WASI_ERRNO_BADF;
}

int __imported_wasi_snapshot_preview1_fd_seek(int fd, long long by, int from, int now) {
  return __WASI_ERRNO_BADF;
}

int __imported_wasi_snapshot_preview1_fd_fdstat_get(int fd, int stat) {
  return __WASI_ERRNO_BADF;
}
