/* A table of squares: `warm` makes it, and `take` reads an entry and clears it. It lies from address 1024 on. squares.wasm
 * is made of it by
 *
 *     clang --target=wasm32 -mcpu=mvp -O2 -ffreestanding -c examples/library/squares.c -o /tmp/squares.o
 *     wasm-ld --no-entry --strip-all -z stack-size=8192 /tmp/squares.o -o examples/library/squares.wasm
 */
#define EXPORT(name) __attribute__((export_name(#name)))

static unsigned squares[4096];

EXPORT(warm) void warm(void) {
  for (unsigned at = 0; at < 4096; at++) squares[at] = at * at;
}

EXPORT(take) unsigned take(unsigned at) {
  unsigned square = squares[at % 4096];
  squares[at % 4096] = 0;
  return square;
}
