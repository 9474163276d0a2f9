#!/bin/sh
# Compiles examples/cpp/shapes.cpp for the host, to /tmp/shapes.wasm. It needs Debian's clang, lld, libc++-dev-wasm32 and
# libclang-rt-dev-wasm32.
set -eu
cd "$(dirname "$0")"
flags="--target=wasm32-wasi -mcpu=mvp -O2"
clang++ $flags -std=c++17 -fno-exceptions -fno-rtti -c shapes.cpp -o /tmp/shapes.o
clang $flags -c ../libc/wasi.c -o /tmp/wasi.o
wasm-ld --no-entry --export=_initialize --strip-all -z stack-size=8192 \
    /usr/lib/wasm32-wasi/crt1-reactor.o /tmp/shapes.o /tmp/wasi.o \
    -L/usr/lib/wasm32-wasi -lc++ -lc++abi -lc-printscan-no-floating-point -lc \
    "$(clang $flags --rtlib=compiler-rt -print-libgcc-file-name)" -o /tmp/shapes.wasm
