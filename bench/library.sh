#!/usr/bin/env bash
# bench/run library: what calls of the library for C take next to a program in Rust over serde_json that does the same in its own
# process: instructions, which repeat, and the processor's time, as a ratio. bin/library has to have built the library.
set -euo pipefail

# shellcheck source=bench/common.sh
. "$(dirname -- "$(readlink -f -- "${BASH_SOURCE[0]}")")/common.sh"

build_rust || exit
cc -std=gnu11 -O2 -I"$top/out/include" "$top/bench/library.c" "$top/out/lib/libmergejoin.a" -o library
print_head "Thousands of instructions of a call, by callgrind, with those of the C library; Rust with $serde_json."
exec python3 library.py ./library "$rust"
