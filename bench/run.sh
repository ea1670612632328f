#!/usr/bin/env bash
# Benchmarks: the archive against plain Rust and plain C, in one run. Arguments go to the program: bench/main.rs says which it takes. SHIFT, a multiple
# of 16, has the linker put the archive's functions where they fit, so many bytes further on: bench/compare.py says why. The baselines' functions
# begin at multiples of 64 bytes, as the archive's do: elsewhere plain Rust has read texts 1.2 times as slowly by the same instructions.
set -euo pipefail
cd "$(dirname "$0")/.."

archive=target/staticlib/libharness.a
[ -f "$archive" ] || { echo "tests/archives.sh builds $archive"; exit 1; }

out=$(mktemp -d)
trap 'rm -rf "$out"' EXIT
objcopy --set-section-alignment ".text.*=$([ -n "${SHIFT:-}" ] && echo 16 || echo 64)" "$archive" "$out/libharness.a"
printf '.section .text.shift,"axR"\n.fill %d, 1, 0x90\n.section .note.GNU-stack,""\n' "${SHIFT:-0}" >"$out/shift.s"
gcc -c "$out/shift.s" -o "$out/shift.o"
gcc -std=c99 -O2 -falign-functions=64 -Wall -Wextra -Werror -c bench/plain.c -o "$out/plain.o"
rustc --edition 2024 -O -D warnings -C llvm-args=-align-all-functions=6 bench/main.rs -o "$out/bench" \
    -C link-arg="$out/shift.o" -C link-arg="$out/libharness.a" -C link-arg="$out/plain.o"
"$out/bench" "$@"
