/* An instance of examples/library/squares.wasm is warmed up, and copied; each copy has what it has. docs/guide/library.md shows how
 * it is built. */
#include "wolqedir.h"
#include <stdio.h>
#include <stdlib.h>
#include <string.h>

enum { COPIES = 3 };

static wq_host host = WQ_HOST_NONE;

/* Prints the sentence for a code. */
static void tell(FILE *to, const char *what, wq_code code) {
  uint8_t room[128];
  size_t len = 0;
  if (wq_code_text(code, room, sizeof room, &len) != WQ_DONE || len > sizeof room) len = 0;
  fprintf(to, "%s: %.*s\n", what, (int)len, (const char *)room);
}

/* Prints why it can't go on, and ends. */
static void must(const char *what, wq_code code) {
  if (code == WQ_DONE) return;
  tell(stderr, what, code);
  exit(1);
}

static size_t load(const char *path) {
  static uint8_t bytes[1 << 16];
  size_t module = 0;
  FILE *file = fopen(path, "rb");
  if (file == NULL) {
    perror(path);
    exit(1);
  }
  size_t len = fread(bytes, 1, sizeof bytes, file);
  fclose(file);
  must("load", wq_load(&host, bytes, len, &module));
  return module;
}

/* Asks for a call with n arguments: its place. */
static uint32_t invoke(const wq_instance *instance, const char *name, int64_t arg, size_t n) {
  uint32_t call = 0;
  must("invoke", wq_invoke(&host, instance, (const uint8_t *)name, strlen(name), &arg, n, 1000000, &call));
  return call;
}

static void run(void) {
  wq_progress progress = {0, 0};
  must("run", wq_run(&host, 1000000, &progress));
}

/* Takes the square of a number: the call's result. */
static unsigned take(const wq_instance *instance, int64_t at) {
  wq_status status = {0, 0, 0, 0, 0};
  uint32_t call = invoke(instance, "take", at, 1);
  run();
  must("status", wq_status_of(&host, instance, call, &status));
  return (unsigned)status.value;
}

/* Prints how many frames are in use, and how many pages share them. */
static void frames(const char *when) {
  wq_report told = {0};
  must("report", wq_report_of(&host, &told));
  printf("%s: %u frames used, %u shared by %llu pages\n", when, told.used_frames, told.shared_frames,
         (unsigned long long)told.sharers);
}

int main(int count, char **words) {
  static const uint64_t none[1];
  wq_params params = {.shares = 100, .min = 8, .max = 16};
  wq_quota quota = {.shares = 100, .min = 2, .max = 16};
  wq_instance template = {0, 0}, copies[COPIES] = {{0, 0}};
  size_t len = 0;
  uint32_t square = 0;
  must("new", wq_host_new(&host, 1024, 4096, 3, 4));
  size_t squares = load(count > 1 ? words[1] : "examples/library/squares.wasm");
  must("admit", wq_admit(&host, squares, &params, none, 0, &template));
  invoke(&template, "warm", 0, 0);
  tell(stdout, "too early", wq_fork(&host, &template, &quota, &copies[0]));
  run();
  frames("warm");
  must("read", wq_read(&host, &template, 1072, (uint8_t *)&square, 4));
  printf("seen: %u\n", square);
  for (int at = 0; at < COPIES; at++) must("fork", wq_fork(&host, &template, &quota, &copies[at]));
  frames("copied");
  printf("taken:");
  for (int at = 0; at < COPIES; at++) printf(" %u", take(&copies[at], 12));
  printf("\n");
  frames("called");
  for (int at = 0; at < COPIES; at++) must("release", wq_release(&host, &copies[at], &len));
  wq_host_free(&host);
  return 0;
}
