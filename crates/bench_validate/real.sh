#!/bin/sh
# Makes a module of about a megabyte of real code: real.sh SOURCES MODULE. In SOURCES lie unpacked, as `apt-get source`
# leaves them, zlib, bzip2, lz4, libzstd and libtommath of Debian. Needs clang, lld, wabt and wasi-libc, of which only the
# headers are read. Files with floating-point code are left out, and two more so that the module stays below its limit.
set -eu
sources=$1
module=$2
objects=$(mktemp -d)
compile() {
    clang --target=wasm32-unknown-unknown -mcpu=mvp -O2 -ffunction-sections -fdata-sections -fno-builtin -nostdlib \
        -isystem /usr/include/wasm32-wasi -D__wasi__ -DBZ_NO_STDIO -DZSTD_LEGACY_SUPPORT=1 -DZSTD_DISABLE_ASM -w \
        -I "$sources"/libtommath-* -I "$sources"/*zstd-*/lib -c "$1" -o "$objects/$(echo "$1" | tr / _).o"
}
for file in "$sources"/zlib-*/[a-f]*.c "$sources"/zlib-*/inf*.c "$sources"/zlib-*/[tuz]*.c \
    "$sources"/bzip2-*/[bcdhr]*.c "$sources"/lz4-*/lib/*.c "$sources"/libtommath-*/bn_*.c \
    "$sources"/*zstd-*/lib/common/*.c "$sources"/*zstd-*/lib/compress/*.c "$sources"/*zstd-*/lib/decompress/*.c \
    "$sources"/*zstd-*/lib/dictBuilder/*.c "$sources"/*zstd-*/lib/legacy/*.c; do
    case $file in */bzip2.c | */bzip2recover.c | */dlltest.c | */zstd_v01.c | */infback.c) continue ;; esac
    compile "$file" 2>/dev/null || echo "left out, since it doesn't compile: $file"
done
for object in "$objects"/*.o; do
    if wasm-objdump -d "$object" | grep -qE '\| f(32|64)\.|trunc|type=f(32|64)'; then
        rm "$object"
    fi
done
wasm-ld --no-entry --export-all --allow-undefined --strip-all "$objects"/*.o -o "$module"
rm -r "$objects"
ls -l "$module"
