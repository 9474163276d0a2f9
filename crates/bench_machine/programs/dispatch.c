/* An interpreter of a small code, its operations by a switch (br_table) and, for arithmetic, by functions in a table
   (call_indirect). The code adds up steps of the way of Collatz of the numbers from 1 to TIMES. */
#include "program.h"

typedef u32 (*Binary)(u32, u32);
static u32 sum_of(u32 a, u32 b) { return a + b; }
static u32 product_of(u32 a, u32 b) { return a * b; }
static u32 low_bits_of(u32 a, u32 b) { return a & b; }
static u32 moved(u32 a, u32 b) { return a >> (b & 31); }
static u32 is_equal(u32 a, u32 b) { return a == b; }
static u32 is_less(u32 a, u32 b) { return a < b; }
static const Binary binaries[6] = {sum_of, product_of, low_bits_of, moved, is_equal, is_less};

enum { HALT, PUSH, LOAD, STORE, BINARY, JUMP, JUMP_ZERO, NEXT };
enum { SUM, PRODUCT, LOW, MOVED, EQUAL, LESS };
/* Words 0 to 2 are the number to start from, the present number and the steps. */
static const u32 code[] = {
    PUSH, 1, STORE, 0,                                                        /* 0 */
    LOAD, 0, PUSH, TIMES + 1, BINARY, LESS, JUMP_ZERO, 62,                    /* 4 */
    LOAD, 0, STORE, 1,                                                        /* 12 */
    LOAD, 1, PUSH, 1, BINARY, EQUAL, JUMP_ZERO, 28, NEXT, 0, JUMP, 4,         /* 16 */
    NEXT, 2,                                                                  /* 28 */
    LOAD, 1, PUSH, 1, BINARY, LOW, JUMP_ZERO, 52,                             /* 30 */
    LOAD, 1, PUSH, 3, BINARY, PRODUCT, PUSH, 1, BINARY, SUM, STORE, 1, JUMP, 16, /* 38 */
    LOAD, 1, PUSH, 1, BINARY, MOVED, STORE, 1, JUMP, 16,                      /* 52 */
    HALT, 0,                                                                  /* 62 */
};
static u32 words[4], stack[16];

EXPORT(run) u32 run(void) {
  const u32 *at = code;
  u32 height = 0;
  for (u32 i = 0; i < 4; i++) words[i] = 0;
  for (;;) {
    u32 operation = at[0], given = at[1];
    at += 2;
    switch (operation) {
      case HALT: return words[2];
      case PUSH: stack[height++] = given; break;
      case LOAD: stack[height++] = words[given]; break;
      case STORE: words[given] = stack[--height]; break;
      case BINARY:
        height--;
        stack[height - 1] = binaries[given](stack[height - 1], stack[height]);
        break;
      case JUMP: at = code + given; break;
      case JUMP_ZERO:
        if (!stack[--height]) at = code + given;
        break;
      case NEXT: words[given]++; break;
    }
  }
}
