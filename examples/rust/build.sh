#!/bin/sh
# Compiles examples/rust/words.rs for the host, to /tmp/words.wasm. It needs Debian's rustc, lld and
# libstd-rust-dev-wasm32. Where another rustc comes first on the path: RUSTC=/usr/bin/rustc sh build.sh.
set -eu
cd "$(dirname "$0")"
"${RUSTC:-rustc}" --target wasm32-unknown-unknown --crate-type cdylib -O -C target-cpu=mvp -C panic=abort -C lto=yes \
    -C strip=symbols -C link-arg=-zstack-size=16384 words.rs -o /tmp/words.wasm
