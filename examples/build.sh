#!/bin/sh
# Compiles examples/hello.c for the host, to /tmp/hello.wasm. It needs clang and lld (Debian: clang lld).
set -eu
cd "$(dirname "$0")"
clang --target=wasm32 -mcpu=mvp -O2 -ffreestanding -c hello.c -o /tmp/hello.o
wasm-ld --no-entry --strip-all /tmp/hello.o -o /tmp/hello.wasm
