/* wolqedir.h: a host of many WebAssembly instances on one memory, each of which gets what it would get alone.
 *
 * Link libwolqedir.a (`rt lib` in crates/wolqedir makes it in out/) and behind it liblibc_c.a (in the toolchain's folder c),
 * which calls malloc, realloc and free; or the shared library that bindings/c/install.sh makes of both. docs/guide/library.md
 * shows how, and examples/library/hello.c a whole program. Both want Linux and a processor of x86-64-v2 (SSE4.2, POPCNT).
 *
 * Promise (proved, for all bytes and arguments; the compiler, the C heap and your duties below are trusted): whatever is
 * asked in whatever order, a call's end, result and charges, and the bytes that an instance puts out, are those that the W3C
 * standard gives the same calls alone on a flat memory. A call that answers a code other than WQ_DONE has changed nothing.
 *
 * Handles. A wq_host is one word and a tag, which the library alone writes. WQ_HOST_NONE, all bytes 0, holds no host. Don't
 * copy one while it holds a host, and don't change it. Calls before wq_host_new and after wq_host_free answer WQ_NONE and do
 * nothing, and so does a second wq_host_free; but wq_invoke looks at its name before (WQ_NAME), and wq_invoke and wq_admit copy
 * what they are given (WQ_MEMORY). wq_host_new answers WQ_FULL where the handle holds a host. A wq_instance doesn't say whose it
 * is: the same one may be there in two hosts.
 *
 * Pointers. Every pointer is valid for what it says, aligned, and not null, also where a length is 0; what a call may write
 * overlaps nothing else that it is given. Nothing is kept: bytes are copied in and out, and are yours again when the call
 * returns. What a call may write is initialised before, is written at WQ_DONE, and else is as it was.
 *
 * Room. Where bytes, words or rows are copied into your room, you give its length; as many as there is room for are written,
 * nothing behind, and *len is how many there are. To learn the length first, give a room of length 0.
 *
 * Threads. No thread is started, and nothing waits. One call at a time for one handle; hosts in other handles share nothing
 * with it. A handle may go to another thread where a lock, a join or a start of a thread orders that. No call from a signal
 * handler, nor in the child of a fork of a process with threads.
 *
 * Memory. malloc and realloc align blocks to 16 bytes, and may answer NULL: the call then answers a code, and the host is as
 * it was. wq_run, wq_scan, wq_epoch, wq_status_of, wq_ended, wq_output_of, wq_taken, wq_read, wq_report_of, wq_counts_of,
 * wq_instance_report_of, wq_export_count, wq_export_at, wq_refuel, wq_retry, wq_cancel, wq_release and wq_unload take no memory.
 * A host takes room for all its frames and slots when it is made. Of that 63 bytes a frame and 20 a slot are memory at once; 4096
 * more of each are addresses until it is first used.
 *
 * Life. A host has 1024 modules at once (M1), and 4096 instances (A6). An instance has 65535 calls beside its start (H6), 1024 of
 * them open at once (H4); each takes 100 to 260 bytes until the instance is released. It puts out 65536 bytes at most (T9). A
 * copy counts the calls and the bytes that it was copied with. None can go to another host.
 */
#ifndef WOLQEDIR_H
#define WOLQEDIR_H
#include <stddef.h>
#include <stdint.h>

/* The version of this header: 10000 times the major number, 100 times the minor one, and the patch. */
#define WQ_VERSION 100
#define WQ_VERSION_TEXT "0.1.0"

#ifdef __cplusplus
extern "C" {
#endif

typedef struct wq_host { uint32_t full; void *at; } wq_host;
#define WQ_HOST_NONE {0, NULL}

/* 0; or one of the first ten; or a family, and in the low byte the number that scripts show behind the family's letter, as
 * docs/guide/script.md lists them. */
typedef uint32_t wq_code;
#define WQ_DONE    0u      /* it was done */
#define WQ_NONE    1u      /* no host is in the handle */
#define WQ_MEMORY  2u      /* room was refused, where no family has a number for that */
#define WQ_FULL    3u      /* the handle holds a host already */
#define WQ_TAX     4u      /* the tax isn't a fraction below one with a denominator of 1 to 1000 */
#define WQ_NAME    5u      /* the name isn't UTF-8 */
#define WQ_UNKNOWN 6u      /* no such instance or call; of exports, no such module or place; of wq_code_text, no such code */
#define WQ_LARGE   7u      /* frames and slots are 2^32 together or more: no scan */
#define WQ_IN_USE  8u      /* an instance of the module is there */
#define WQ_OUTSIDE 9u      /* the memory has fewer bytes */
#define WQ_D       0x100u  /* D1 to D13: the bytes aren't a module, or pass a limit of the format */
#define WQ_V       0x200u  /* V1 to V11: the module isn't valid, or passes a limit of the validator */
#define WQ_L       0x300u  /* L1 to L3: an import that the host doesn't offer */
#define WQ_M       0x400u  /* M1, M2: no room for a module */
#define WQ_A       0x500u  /* A1 to A9: the instance isn't admitted; A1, of wq_unload too, is that no module has the number */
#define WQ_H       0x600u  /* H1 to H8: the host doesn't do what is asked of an instance */
#define WQ_T       0x700u  /* T1 to T10: a call has trapped; in a status */
#define WQ_S       0x800u  /* S1 to S3: the swap device has failed; in a status, and never of a device in memory */
#define WQ_F       0x900u  /* F1 to F4: the instance isn't copied; docs/guide/library.md lists them */

/* An instance, as it was admitted. Its number is never given again; its place may be. */
typedef struct wq_instance { uint64_t place, number; } wq_instance;

typedef struct wq_params {
  uint64_t shares;    /* of memory, 1 to 1000000 */
  uint64_t min, max;  /* frames of 4096 bytes: promised, and at most; 2 <= min <= max <= 65536 */
  uint64_t fuel;      /* charges that its start may take */
  uint64_t salt;      /* the value of the host's global `salt`, */
  uint32_t base;      /* and of `base` */
} wq_params;

typedef struct wq_quota {
  uint64_t shares;    /* of memory, 1 to 1000000 */
  uint64_t min, max;  /* frames of 4096 bytes: promised, and at most; 2 <= min <= max <= 65536 */
} wq_quota;

typedef struct wq_progress {
  uint64_t charges;   /* how many were taken, by all calls together */
  uint32_t goes_on;   /* 1 where a call can go on, else 0 */
} wq_progress;

enum {
  WQ_WAITING = 1,     /* behind another call of the instance */
  WQ_GOING,           /* it goes on by wq_run */
  WQ_FUEL,            /* it has used its fuel, and goes on behind wq_refuel */
  WQ_FRAME,           /* its next step waits for memory, which wq_run makes ready */
  WQ_DEVICE,          /* the swap device has failed, by `code`; it goes on behind wq_retry */
  WQ_RETURNED,        /* it has returned: `value`, or nothing where `bits` is 0 */
  WQ_TRAPPED,         /* it has trapped, by `code` */
  WQ_CANCELLED,       /* it was cancelled */
  WQ_DEAD             /* it did nothing: the start of its instance had trapped or was cancelled */
};

typedef struct wq_status {
  uint32_t kind;      /* one of these */
  wq_code code;       /* of the trap or of the device; else 0 */
  uint32_t bits;      /* of the result: 32 or 64; 0 where there is none */
  uint64_t value;     /* the result, an i32 in the low 32 bits; else 0 */
  uint64_t charges;   /* how many the call has taken */
} wq_status;

typedef struct wq_export {
  size_t name_len;    /* bytes of its name */
  size_t params;      /* how many parameters */
  size_t results;     /* how many results: 1 or 0 */
} wq_export;

typedef struct wq_report {
  uint32_t frames, used_frames;  /* of 4096 bytes: all, and those in use */
  uint32_t slots, used_slots;    /* for swapped pages: all, and those in use */
  uint32_t shared_frames;        /* on which several pages lie */
  uint32_t tax_num, tax_den;     /* as the host was made */
  uint64_t sharers;              /* the pages that lie on shared frames */
  size_t instances;              /* how many there are */
} wq_report;

typedef struct wq_counts {       /* since the host was made; each goes from 2^64 - 1 on to 0 */
  uint64_t turns;                /* of instances of which a call was open */
  uint64_t charges;              /* that these took */
  uint64_t returned, trapped;    /* calls that ended so in a turn, starts among them */
  uint64_t cancelled, dead;      /* calls that ended so; those that are open at a release don't count */
  uint64_t offers, merges;       /* of pages for sharing, and those by which two came to share a frame */
  uint64_t breaks;               /* pages that shared a frame until they were written */
  uint64_t evictions, fetches;   /* pages that went to swap, and that came back */
  uint64_t faults;               /* of the swap device; one in memory has none */
} wq_counts;

typedef struct wq_instance_report {
  wq_instance instance;
  uint32_t shares, min, max;     /* as it was admitted */
  uint32_t charged;              /* frames; a shared one is charged to the first of its sharers */
  uint32_t active;               /* of these, those on which a page was touched */
  uint32_t swapped;              /* pages */
} wq_instance_report;

/* A new host with so many frames of 4096 bytes, so many slots for pages that are swapped to memory, and the tax
 * tax_num / tax_den on frames on which no page was touched (3 and 4 is usual). WQ_FULL, WQ_TAX, WQ_MEMORY. */
wq_code wq_host_new(wq_host *host, uint32_t frames, uint32_t slots, uint32_t tax_num, uint32_t tax_den);

/* Lets the host go, with all that it has. */
void wq_host_free(wq_host *host);

/* Keeps the module that these bytes spell: its number, counted from 0. It may import the three functions and two globals of `host`
 * that docs/guide/compiling-c.md lists; a program can add none. D, V, L, M. */
wq_code wq_load(wq_host *host, const uint8_t *bytes, size_t len, size_t *module);

/* Lets a module go that no instance is of, admitted or copied: its memory is given back, and its number never given again. A1 where
 * no module has the number; WQ_IN_USE. */
wq_code wq_unload(wq_host *host, size_t module);

/* How many functions a module exports. WQ_UNKNOWN where no module has the number. */
wq_code wq_export_count(wq_host *host, size_t module, size_t *count);

/* The function at a place, from 0 on, of those that a module exports, in the module's order. Of its name, which is UTF-8 without a
 * NUL at its end, as many bytes as there is room for; and of the bits of its parameters and then of its results, 32 or 64 each.
 * WQ_UNKNOWN where there is no such module or place. */
wq_code wq_export_at(wq_host *host, size_t module, size_t at, wq_export *found, uint8_t *name, size_t cap, uint8_t *types,
                     size_t types_cap);

/* Admits an instance of a module, with the n words of its input. Its start runs by wq_run, before its calls. WQ_MEMORY, A. */
wq_code wq_admit(wq_host *host, size_t module, const wq_params *params, const uint64_t *inputs, size_t n,
                 wq_instance *instance);

/* Copies an instance all of whose calls have ended: the copy begins as that one is, with its memory, globals, table, calls and
 * output, and has its own quota. They share all frames until one of them writes: no frame is taken, and no byte copied. H1; F1
 * where a call is open, the start among them; F2 where its start has failed; A2 to A7, as wq_admit answers such a quota; F3
 * where the copy's memory could not grow just as far, or has more pages than max; F4 where a page of it is in swap or on its
 * way, so promise a template as many frames as it has pages: the first of these. Else A9 where room is refused, or frames and
 * slots are 2^32 together or more. */
wq_code wq_fork(wq_host *host, const wq_instance *of, const wq_quota *quota, wq_instance *instance);

/* Asks for a call of the function that the instance exports by this name, with n arguments and so much fuel, and runs nothing:
 * its place among the instance's calls, of which the start is 0. An argument is a number in the bits of its type, signed or
 * unsigned; an i64 from 2^63 on is given by its signed reading. WQ_NAME, WQ_MEMORY, H1 to H7. */
wq_code wq_invoke(wq_host *host, const wq_instance *instance, const uint8_t *name, size_t len, const int64_t *args, size_t n,
                  uint64_t fuel, uint32_t *call);

/* The same of the function at a place, from 0 on, of those that the instance's module exports: by the name that wq_export_at tells.
 * WQ_MEMORY, H1 to H7; H2 where there is no such place. */
wq_code wq_invoke_at(wq_host *host, const wq_instance *instance, size_t at, const int64_t *args, size_t n, uint64_t fuel,
                     uint32_t *call);

/* Lets all calls of all instances go on by turns, until none can or they have taken so many charges together. Each instance
 * has a turn of 1000 charges at most before the next one has. Nothing ends it before: give long runs in slices. */
wq_code wq_run(wq_host *host, uint64_t charges, wq_progress *progress);

/* How far a call is. WQ_UNKNOWN. */
wq_code wq_status_of(wq_host *host, const wq_instance *instance, uint32_t call, wq_status *status);

/* The statuses of the calls of an instance that have ended, from a place among its calls on, each as wq_status_of tells it: as many
 * as there is room for. *count is how many have ended from that place on. H1. */
wq_code wq_ended(wq_host *host, const wq_instance *instance, size_t from, wq_status *room, size_t cap, size_t *count);

/* Gives the present call so much more fuel. H1; H8 where no call is open. */
wq_code wq_refuel(wq_host *host, const wq_instance *instance, uint64_t fuel);

/* Lets the present call try again where the swap device has failed. H1; H8 where it hasn't. */
wq_code wq_retry(wq_host *host, const wq_instance *instance);

/* Ends the present call where it is; a start that is cancelled leaves the instance dead. H1; H8 where no call is open. */
wq_code wq_cancel(wq_host *host, const wq_instance *instance);

/* Lets an instance go: how many bytes it had put out. They stay in the host until the next release. H1. */
wq_code wq_release(wq_host *host, const wq_instance *instance, size_t *len);

/* The bytes that the instance had put out that was released last; none before the first release. */
wq_code wq_taken(wq_host *host, uint8_t *room, size_t cap, size_t *len);

/* What an instance has put out so far, from the byte at a place on: as many bytes as there is room for. *len is how many bytes it
 * has put out in all. They are what its calls give, and what wq_release would keep. H1. */
wq_code wq_output_of(wq_host *host, const wq_instance *instance, size_t from, uint8_t *room, size_t cap, size_t *len);

/* The bytes of an instance's memory from an address on, as many as the room has, as the instance sees them between two of its
 * turns. Nothing changes: a page in swap stays there. H1; WQ_OUTSIDE. */
wq_code wq_read(wq_host *host, const wq_instance *instance, uint64_t address, uint8_t *room, size_t cap);

/* Merges equal pages of all instances. No instance and no call sees it. It looks at all pages. WQ_LARGE. */
wq_code wq_scan(wq_host *host);

/* Marks all pages as not touched, by which the report and swap go. wq_run does so too, as it begins, where a call can go on: the
 * first time, and then where runs took a million charges since it last did; once at most. So run by slices of a million. */
wq_code wq_epoch(wq_host *host);

/* How the frames, slots and pages of the host are used, in the same time however large it is. */
wq_code wq_report_of(wq_host *host, wq_report *report);

/* What the host has counted, in the same time too. */
wq_code wq_counts_of(wq_host *host, wq_counts *counts);

/* What an instance has of them, in the same time too. H1. */
wq_code wq_instance_report_of(wq_host *host, const wq_instance *instance, wq_instance_report *row);

/* What each instance has of them, by number; *len is how many there are. WQ_MEMORY, H7. */
wq_code wq_instance_reports(wq_host *host, wq_instance_report *room, size_t cap, size_t *len);

/* The calls of an instance in the order of their coming, the first of which is the start, as words. Of each: the index of its
 * function, or 2^64 - 1 for none; its fuel in all; the pieces of data segments that it wrote; its charges; the kind of its
 * status, or 0 where it hasn't ended; 1 where it has a result, else 0; the result, or the number of its trap, else 0; how many
 * arguments it has; and these. It replays: an owner can make the calls again elsewhere, and compare. WQ_MEMORY, H1, H7. */
wq_code wq_transcript_of(wq_host *host, const wq_instance *instance, uint64_t *room, size_t cap, size_t *len);

/* A sentence for a code, in English, with no NUL. WQ_UNKNOWN. */
wq_code wq_code_text(wq_code code, uint8_t *room, size_t cap, size_t *len);

#ifdef __cplusplus
}
#endif
#endif
