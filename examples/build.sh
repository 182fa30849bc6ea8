#!/usr/bin/env bash
# Builds the modules of the examples from their sources in C and in Rust. The modules stand in the repository, and nothing needs this to run
# them. docs/FUNCTIONS.md says what the flags are for.
#
#     build.sh [FOLDER]     lays NAME.wasm beside each source, or all of them in FOLDER
#
# It needs the Debian packages clang, lld, wasi-libc and libclang-rt-14-dev-wasm32, and for Rust rustc and libstd-rust-dev-wasm32. The
# modules here were built by clang and lld 1:14.0-55.7~deb12u1 (14.0.6), wasi-libc 0.0~git20220510.9886d3d-2,
# libclang-rt-14-dev-wasm32 1:14.0.6-12, and rustc and libstd-rust-dev-wasm32 1.63.0+dfsg1-2.
set -euo pipefail
folder=${1:+$(realpath "$1")}
cd "$(dirname "$0")"
compiler=${CC:-clang}
rust=("${RUSTC:-rustc}" --edition 2021 -C opt-level=2 -C target-cpu=mvp -C panic=abort -C linker=wasm-ld -C link-arg=--strip-debug -C link-arg=--stack-first)
# Without -O for the linker, since clang then runs wasm-opt behind it where that is installed. Names stay in the module. The
# stack lies below the data, so that one that overflows traps and writes over nothing.
compile=("$compiler" -std=c11 -mcpu=mvp -O2 -Wall -Wextra -Werror -c)
link=("$compiler" -Wl,--strip-debug,--stack-first)

made=$(mktemp -d)
trap 'rm -r "$made"' EXIT

lay() { install -m 644 "$made/wasm" "${folder:-$1}/$1.wasm"; }

# A function that stands on no library.
bare() {
    "${compile[@]}" --target=wasm32 -ffreestanding "$1/$1.c" -o "$made/o"
    "${link[@]}" --target=wasm32 -nostdlib -Wl,--no-entry "$made/o" -o "$made/wasm"
    lay "$1"
}

# A function with `main` that uses wasi-libc. Later compilers call the target wasm32-wasip1, which this wasi-libc has not yet.
with_libc() {
    "${compile[@]}" --target=wasm32-wasi -Wno-deprecated "$1/$1.c" -o "$made/o"
    "${link[@]}" --target=wasm32-wasi -Wno-deprecated "$made/o" -o "$made/wasm"
    lay "$1"
}

# A function that uses <stdio.h>: its printf has no floating point, and what it asks for besides is answered by stdio_stubs.c.
with_stdio() {
    "${compile[@]}" --target=wasm32-wasi -Wno-deprecated stdio_stubs.c -o "$made/stubs"
    "${compile[@]}" --target=wasm32-wasi -Wno-deprecated "$1/$1.c" -o "$made/o"
    "${link[@]}" --target=wasm32-wasi -Wno-deprecated "$made/o" "$made/stubs" -lc-printscan-no-floating-point -o "$made/wasm"
    lay "$1"
}

# A function in Rust without its standard library, and one with it.
rust_alone() {
    "${rust[@]}" --target wasm32-unknown-unknown --crate-type cdylib "$1/$1.rs" -o "$made/wasm"
    lay "$1"
}

rust_with_std() {
    "${rust[@]}" --target wasm32-wasi "$1/$1.rs" -o "$made/wasm"
    lay "$1"
}

# Two as one may write them first, which are refused (docs/FUNCTIONS.md, "From an empty file").
refused() {
    "${compile[@]}" --target=wasm32-wasi -Wno-deprecated refused/mean.c -o "$made/o"
    "${link[@]}" --target=wasm32-wasi -Wno-deprecated "$made/o" -o "$made/wasm"
    install -m 644 "$made/wasm" "${folder:-refused}/${folder:+refused_}mean.wasm"
    "${rust[@]}" --target wasm32-wasi refused/letters.rs -o "$made/wasm"
    install -m 644 "$made/wasm" "${folder:-refused}/${folder:+refused_}letters.wasm"
}

for name in echo sha256 life matrix trap endless; do bare "$name"; done
for name in lines csv json; do with_libc "$name"; done
for name in words mean; do with_stdio $name; done
rust_alone upper
rust_with_std letters
refused
