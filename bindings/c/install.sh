#!/bin/sh
# Makes a shared library of libwolqedir.a and liblibc_c.a, which lie in FROM, and puts it under TO, with these two, the header and
# what pkg-config reads: `sh install.sh FROM TO`. It needs gcc.
set -eu
if [ $# -ne 2 ]; then
    echo "usage: sh install.sh FROM TO" >&2
    exit 2
fi
here=$(dirname "$0")
text=$(sed -n 's/^#define WQ_VERSION_TEXT "\(.*\)"$/\1/p' "$here/wolqedir.h")
soname=libwolqedir.so.${text%%.*}
mkdir -p "$2/include" "$2/lib/pkgconfig"
cp "$1/libwolqedir.a" "$1/liblibc_c.a" "$2/lib/"
cp "$here/wolqedir.h" "$2/include/"
cp "$here/wolqedir.pc" "$2/lib/pkgconfig/"
gcc -shared -o "$2/lib/libwolqedir.so.$text" "-Wl,-soname,$soname" "-Wl,--version-script=$here/wolqedir.map" \
    -Wl,--whole-archive "$1/libwolqedir.a" -Wl,--no-whole-archive "$1/liblibc_c.a"
ln -sf "libwolqedir.so.$text" "$2/lib/$soname"
ln -sf "$soname" "$2/lib/libwolqedir.so"
