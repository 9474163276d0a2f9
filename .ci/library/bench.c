/* Figures of the library, by hand: `bench calls MODULE EXPORT ARG IDLE` makes 60000 calls of an instance beside so many idle ones,
 * each by wq_invoke, wq_run and wq_status_of; `bench run MODULE EXPORT COUNT FUEL` lets so many instances compute at once, `bench
 * idle MODULE COUNT` admits so many, and `bench forks MODULE PAGES WORDS COPIES` copies an instance of the tests' module `pages` so
 * often, PAGES of whose pages were written, and then 60000 times, each copy summing WORDS words and being released; `bench looks
 * MODULE COUNT` looks so often at 100 bytes of an instance of the tests' module `hosted`, and at how the host is used. Processor
 * time, and what /proc says of memory. */
#include "wolqedir.h"
#include <stdio.h>
#include <stdlib.h>
#include <string.h>
#include <time.h>

static wq_host host = WQ_HOST_NONE;

static void must(wq_code code) {
  if (code == WQ_DONE) return;
  fprintf(stderr, "code %#x\n", (unsigned)code);
  exit(1);
}

static double now(void) {
  struct timespec at;
  clock_gettime(CLOCK_PROCESS_CPUTIME_ID, &at);
  return (double)at.tv_sec + (double)at.tv_nsec * 1e-9;
}

static size_t load(const char *path) {
  static uint8_t bytes[1 << 20];
  size_t module = 0;
  FILE *file = fopen(path, "rb");
  if (file == NULL) {
    perror(path);
    exit(1);
  }
  size_t len = fread(bytes, 1, sizeof bytes, file);
  fclose(file);
  must(wq_load(&host, bytes, len, &module));
  return module;
}

static wq_instance admit_within(size_t module, uint64_t max) {
  static const uint64_t none[1];
  wq_params params = {.shares = 1, .min = 2, .max = max, .fuel = 100000};
  wq_instance instance = {0, 0};
  must(wq_admit(&host, module, &params, none, 0, &instance));
  return instance;
}

static wq_instance admit(size_t module) { return admit_within(module, 16); }

static uint64_t run(void) {
  wq_progress progress = {0, 0};
  must(wq_run(&host, UINT64_MAX, &progress));
  return progress.charges;
}

static uint32_t invoke(const wq_instance *instance, const char *export, const int64_t *args, size_t n, uint64_t fuel) {
  uint32_t call = 0;
  must(wq_invoke(&host, instance, (const uint8_t *)export, strlen(export), args, n, fuel, &call));
  return call;
}

static void calls(size_t module, const char *export, int64_t arg, int idle) {
  const int count = 60000;
  uint64_t charges = 0;
  for (int at = 0; at < idle; at++) admit(module);
  wq_instance instance = admit(module);
  run();
  double began = now();
  for (int at = 0; at < count; at++) {
    wq_status status = {0, 0, 0, 0, 0};
    uint32_t call = invoke(&instance, export, &arg, 1, 1000000);
    run();
    must(wq_status_of(&host, &instance, call, &status));
    charges += status.charges;
  }
  double each = (now() - began) / count;
  printf("beside %d: %.0f ns a call of %.1f charges\n", idle, each * 1e9, (double)charges / count);
}

static void together(size_t module, const char *export, int count, uint64_t fuel) {
  static const int64_t none[1];
  for (int at = 0; at < count; at++) {
    wq_instance instance = admit(module);
    invoke(&instance, export, none, 0, fuel);
  }
  double began = now();
  uint64_t charges = run();
  printf("%d at once: %.3f s, %.2f ns a charge\n", count, now() - began, (now() - began) * 1e9 / (double)charges);
}

static void memory(void) {
  char line[128];
  FILE *file = fopen("/proc/self/status", "r");
  while (file != NULL && fgets(line, sizeof line, file) != NULL)
    if (strncmp(line, "VmRSS", 5) == 0) printf("%s", line);
  if (file != NULL) fclose(file);
}

static void frames(void) {
  wq_report report;
  must(wq_report_of(&host, &report));
  printf("%u frames in use, %u of them shared\n", report.used_frames, report.shared_frames);
}

static wq_instance forked(const wq_instance *template) {
  wq_quota quota = {.shares = 1, .min = 2, .max = 256};
  wq_instance copy = {0, 0};
  must(wq_fork(&host, template, &quota, &copy));
  return copy;
}

static void release(const wq_instance *instance) {
  size_t len = 0;
  must(wq_release(&host, instance, &len));
}

/* Microseconds of each of so many since then. */
static double each(double began, int count) { return (now() - began) / count * 1e6; }

/* One with 1 MiB of memory of which so many pages of 4096 bytes were written. */
static wq_instance warmed(size_t module, int64_t pages) {
  int64_t more = 15, filled[3] = {0, pages, 7};
  wq_instance instance = admit_within(module, 256);
  invoke(&instance, "grow", &more, 1, 1000000);
  invoke(&instance, "fill", filled, 3, 100000000);
  run();
  return instance;
}

/* Forty calls that store a byte in a page, one of each. */
static double stores(const wq_instance *instances, int64_t value) {
  int64_t stored[2] = {1, value};
  double began = now();
  for (int at = 0; at < 40; at++) {
    invoke(&instances[at], "set", stored, 2, 1000000);
    run();
  }
  return each(began, 40);
}

/* A few more, that are copied, twice, the second time into the memory of the first, and that are admitted and started. */
static void few_more(size_t module, const wq_instance *template) {
  wq_instance more[40];
  for (int time = 0; time < 3; time++) {
    double began = now();
    for (int at = 0; at < 40; at++) more[at] = time < 2 ? forked(template) : admit_within(module, 256);
    if (time == 2) run();
    printf("%s %.2f us\n", time == 0 ? "then a copy" : time == 1 ? "again" : "an admission and a start", each(began, 40));
    if (time == 1) printf("a call that stores: first %.2f us", stores(more, 9));
    if (time == 1) printf(", then %.2f us\n", stores(more, 10));
    for (int at = 0; at < 40; at++) release(&more[at]);
  }
}

static void forks(size_t module, int64_t pages, int64_t words, int copies) {
  const int count = 60000;
  int64_t summed[2] = {0, words};
  uint64_t charges = 0;
  wq_instance template = warmed(module, pages);
  memory();
  double began = now();
  wq_instance copy = {0, 0};
  for (int at = 0; at < copies; at++) copy = forked(&template);
  printf("%d copies of %lld pages: %.2f us each\n", copies, (long long)pages, each(began, copies));
  frames();
  memory();
  few_more(module, &template);
  began = now();
  for (int at = 0; at < count; at++) {
    copy = forked(&template);
    invoke(&copy, "sum", summed, 2, 1000000);
    charges += run();
    release(&copy);
  }
  printf("a copy, a call of %.1f charges, a release: %.2f us\n", (double)charges / count, each(began, count));
}

static void looks(size_t module, int count) {
  int64_t put[2] = {0, 100};
  uint8_t room[100] = {0};
  size_t len = 0;
  wq_report report;
  wq_counts counts;
  wq_instance_report row;
  wq_instance instance = admit(module);
  invoke(&instance, "emit", put, 2, 1000000);
  run();
  double began = now();
  for (int at = 0; at < count; at++) must(wq_output_of(&host, &instance, 0, room, sizeof room, &len));
  printf("100 bytes of output: %.3f us\n", each(began, count));
  began = now();
  for (int at = 0; at < count; at++) must(wq_read(&host, &instance, 65436, room, sizeof room));
  printf("100 bytes of memory: %.3f us\n", each(began, count));
  began = now();
  for (int at = 0; at < count; at++) must(wq_report_of(&host, &report));
  printf("how the host is used: %.3f us\n", each(began, count));
  began = now();
  for (int at = 0; at < count; at++) must(wq_counts_of(&host, &counts));
  printf("what it has counted: %.3f us\n", each(began, count));
  began = now();
  for (int at = 0; at < count; at++) must(wq_instance_report_of(&host, &instance, &row));
  printf("what an instance has: %.3f us\n", each(began, count));
}

int main(int count, char **words) {
  if (count < 4) return 2;
  must(wq_host_new(&host, 16384, strcmp(words[1], "forks") == 0 ? 1100000 : 65536, 3, 4));
  size_t module = load(words[2]);
  if (strcmp(words[1], "calls") == 0 && count == 6) calls(module, words[3], atoll(words[4]), atoi(words[5]));
  if (strcmp(words[1], "run") == 0 && count == 6) together(module, words[3], atoi(words[4]), strtoull(words[5], NULL, 10));
  if (strcmp(words[1], "forks") == 0 && count == 6) forks(module, atoll(words[3]), atoll(words[4]), atoi(words[5]));
  if (strcmp(words[1], "looks") == 0) looks(module, atoi(words[3]));
  if (strcmp(words[1], "idle") == 0) {
    for (int at = 0; at < atoi(words[3]); at++) admit(module);
    run();
    memory();
  }
  wq_host_free(&host);
  return 0;
}
