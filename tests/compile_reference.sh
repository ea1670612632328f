#!/usr/bin/env bash
# Compiles the independent implementation, tests/reference, with the two archives that archives.sh builds, to the file named by the one argument.
unset CDPATH
cd -- "$(dirname -- "$0")/.." || exit 1
exec rustc --edition 2021 -O -D warnings tests/reference/main.rs -L native=target/staticlib -l static=moqresam -l static=harness -o "$1"
