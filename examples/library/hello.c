/* Two instances of examples/hello.wasm on one host, called, refuelled, scanned, reported and released by the library.
 * docs/guide/library.md shows how it is built. */
#include "wolqedir.h"
#include <stdio.h>
#include <stdlib.h>

/* No arguments. A pointer is never null, also where nothing is behind it. */
static const int64_t none[1];

/* Prints the sentence for a code. */
static void tell(FILE *to, const char *what, wq_code code) {
  uint8_t room[128];
  size_t len = 0;
  if (wq_code_text(code, room, sizeof room, &len) != WQ_DONE || len > sizeof room) len = 0;
  fprintf(to, "%s: %.*s\n", what, (int)len, (const char *)room);
}

/* Prints why it can't go on, and ends. */
static void must(const char *what, wq_code code) {
  if (code == WQ_DONE) return;
  tell(stderr, what, code);
  exit(1);
}

static size_t load(wq_host *host, const char *path) {
  static uint8_t bytes[1 << 20];
  size_t module = 0;
  FILE *file = fopen(path, "rb");
  if (file == NULL) {
    perror(path);
    exit(1);
  }
  size_t len = fread(bytes, 1, sizeof bytes, file);
  fclose(file);
  must("load", wq_load(host, bytes, len, &module));
  return module;
}

/* Admits an instance with two words as its input. */
static wq_instance admit(wq_host *host, size_t module, uint64_t first, uint64_t second) {
  wq_params params = {.shares = 100, .min = 2, .max = 64, .fuel = 100};
  uint64_t inputs[2] = {first, second};
  wq_instance instance = {0, 0};
  must("admit", wq_admit(host, module, &params, inputs, 2, &instance));
  return instance;
}

/* Lets everybody run, and prints how far a call is. */
static void run(wq_host *host, const char *name, const wq_instance *instance, uint32_t call) {
  wq_progress progress = {0, 0};
  wq_status status = {0, 0, 0, 0, 0};
  must("run", wq_run(host, 1000000, &progress));
  must("status", wq_status_of(host, instance, call, &status));
  printf("%s: %llu charges", name, (unsigned long long)status.charges);
  if (status.kind == WQ_RETURNED && status.bits == 32) printf(", returned %d", (int)(int32_t)(uint32_t)status.value);
  if (status.kind == WQ_FUEL) printf(", waits for fuel");
  printf("\n");
}

/* Prints what the host and each instance use. */
static void report(wq_host *host) {
  wq_report told = {0};
  wq_instance_report rows[8] = {0};
  size_t len = 0;
  must("report", wq_report_of(host, &told));
  must("rows", wq_instance_reports(host, rows, 8, &len));
  printf("frames: %u of %u used, %u shared by %llu pages; slots: %u of %u used\n", told.used_frames, told.frames,
         told.shared_frames, (unsigned long long)told.sharers, told.used_slots, told.slots);
  for (size_t at = 0; at < len && at < 8; at++)
    printf("instance %llu: %u of %u frames, %u active; %u pages swapped\n", (unsigned long long)rows[at].instance.number,
           rows[at].charged, rows[at].max, rows[at].active, rows[at].swapped);
}

static void release(wq_host *host, const char *name, const wq_instance *instance) {
  uint8_t output[64];
  size_t len = 0;
  must("release", wq_release(host, instance, &len));
  must("taken", wq_taken(host, output, sizeof output, &len));
  printf("%s put out ", name);
  for (size_t at = 0; at < len && at < sizeof output; at++) printf("%02x", output[at]);
  printf("\n");
}

int main(int count, char **words) {
  wq_host host = WQ_HOST_NONE;
  size_t len = 0;
  uint32_t call = 0;
  must("new", wq_host_new(&host, 1024, 4096, 3, 4));
  size_t hello = load(&host, count > 1 ? words[1] : "examples/hello.wasm");
  wq_instance a = admit(&host, hello, 40, 2), b = admit(&host, hello, 1, 2);
  must("invoke", wq_invoke(&host, &a, (const uint8_t *)"run", 3, none, 0, 1000, &call));
  run(&host, "a", &a, call);
  must("invoke", wq_invoke(&host, &b, (const uint8_t *)"run", 3, none, 0, 3, &call));
  run(&host, "b", &b, call);
  must("refuel", wq_refuel(&host, &b, 1000));
  run(&host, "b", &b, call);
  must("scan", wq_scan(&host));
  report(&host);
  release(&host, "a", &a);
  release(&host, "b", &b);
  tell(stdout, "b again", wq_release(&host, &b, &len));
  wq_host_free(&host);
  wq_host_free(&host);
  return wq_scan(&host) == WQ_NONE ? 0 : 1;
}
