#!/usr/bin/env bash
# Tells whether the files of all crates, or of those named, have the layout of `rt fmt`, and names those that have not: lays out a copy of each crate, and
# compares. For quick.sh: `rt ci` refuses any other layout by itself. The exit status says whether all have it.
set -eu
unset CDPATH
cd -- "$(dirname -- "$0")/.."

work=$(mktemp -d)
trap 'rm -rf "$work"' EXIT
[ $# -gt 0 ] || set -- $(ls crates)
status=0
for crate in "$@"; do
    mkdir "$work/$crate"
    for part in src specs proofs; do
        [ ! -d "crates/$crate/$part" ] || cp -r "crates/$crate/$part" "$work/$crate/"
    done
    said=$(cd "$work/$crate" && rt fmt 2>&1) || { echo "$said"; status=1; }
    for part in src specs proofs; do
        [ ! -d "crates/$crate/$part" ] || diff -rq "crates/$crate/$part" "$work/$crate/$part" || status=1
    done
done
exit "$status"
