#!/usr/bin/env bash
# Works out by the independent implementation, tests/reference, what the programs have to print: for people who add a case or an example.
#
#   tests/expected.sh FOLDER              prints what the program has to print in a folder with module.tab and plan.tab
#   tests/expected.sh --clashes FOLDER    prints what the lister of clashes has to print there
#   tests/expected.sh --examples          writes anew the tables in examples/ that are made from others, and each stdout there
#
# The reference links the two archives: `make archives` builds them.
unset CDPATH
top=$(cd -- "$(dirname -- "$0")/.." && pwd) || exit 1

case "$#:${1-}" in
    1:--examples) words=(examples "$top/examples" --write) ;;
    2:--clashes) words=(list "$2") ;;
    1:*) words=(print "$1") ;;
    *) words=(print) ;;
esac
if [ ! -d "${words[1]-}" ]; then
    echo "usage: tests/expected.sh FOLDER | --clashes FOLDER | --examples" >&2
    exit 2
fi

work=$(mktemp -d) || exit 1
trap 'rm -rf "$work"' EXIT
bash "$top/tests/compile_reference.sh" "$work/reference" && "$work/reference" "${words[@]}"
