/* An interpreter of a language of eight commands on a tape, its loops found beforehand. A result mixes what was written.
call run 0
call run 1
call run 2
call steps 2
*/
#include "program.h"

static const char hello[] =
    "++++++++[>++++[>++>+++>+++>+<<<<-]>+>+>->>+[<]<-]>>.>---.+++++++..+++.>>.<-.<.+++.------.--------.>>+.>++.";
static const char squares[] =
    "++++[>+++++<-]>[<+++++>-]+<+[>[>+>+<<-]++>>[<<+>>-]>>>[-]++>[-]+>>>+[[-]++++++>>>]<<<[[<++++++++<++>>-]+<.<[>----<-]<]"
    "<<[>>>>>[>>>[-]+++++++++<[>-<-]+++++++++>[-[<->-]+[<<<]]<[>+<-]>]<<-]<<-]";
static const char product[] = "+++++++++++++>+++++++++++++++++<[>[>+>+<<-]>>[<<+>>-]<<<-]>>.";
static u8 cells[4096];
static u16 partner[1024], waiting[64];
static u64 mixed;
static u32 taken, written;

ALONE static u32 prepare(const char *program) {
  u32 length = 0, depth = 0;
  for (; program[length]; length++) {
    if (program[length] == '[') waiting[depth++] = (u16)length;
    if (program[length] == ']') {
      u32 open = waiting[--depth];
      partner[open] = (u16)length, partner[length] = (u16)open;
    }
  }
  return length;
}

ALONE static void interpret(const char *program, u32 most) {
  u32 length = prepare(program), at = 16;
  for (u32 i = 0; i < 4096; i++) cells[i] = 0;
  mixed = 14695981039346656037ull, taken = 0, written = 0;
  for (u32 place = 0; place < length && taken < most; place++, taken++) {
    switch (program[place]) {
      case '+': cells[at]++; break;
      case '-': cells[at]--; break;
      case '>': at = (at + 1) & 4095; break;
      case '<': at = (at - 1) & 4095; break;
      case '.': mixed = (mixed ^ cells[at]) * 1099511628211ull, written++; break;
      case '[':
        if (!cells[at]) place = partner[place];
        break;
      case ']':
        if (cells[at]) place = partner[place];
        break;
    }
  }
}

static const char *program_at(u32 which) { return which == 0 ? hello : which == 1 ? squares : product; }

EXPORT(run) u64 run(u32 which) {
  interpret(program_at(which), 60000);
  return mixed;
}

EXPORT(steps) u32 steps(u32 which) {
  interpret(program_at(which), 60000);
  return taken << 8 | (written & 255);
}
