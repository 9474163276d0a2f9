#!/bin/sh
# Compiles examples/libc/sort.c for the host, to /tmp/sort.wasm. It needs Debian's clang, lld, wasi-libc and
# libclang-rt-dev-wasm32.
set -eu
cd "$(dirname "$0")"
flags="--target=wasm32-wasi -mcpu=mvp -O2"
clang $flags -c sort.c -o /tmp/sort.o
clang $flags -c wasi.c -o /tmp/wasi.o
wasm-ld --no-entry --strip-all -z stack-size=8192 /tmp/sort.o /tmp/wasi.o \
    -L/usr/lib/wasm32-wasi -lc-printscan-no-floating-point -lc \
    "$(clang $flags --rtlib=compiler-rt -print-libgcc-file-name)" -o /tmp/sort.wasm
