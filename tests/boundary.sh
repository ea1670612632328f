#!/usr/bin/env bash
# The C boundary: compiles the header as C and as C++, and its example; holds its words for refusals to docs/REFERENCE.md; builds the bench program as
# README.md says; runs the C tests and the bench program, each as built for release and under the address and undefined behaviour sanitizers, the
# bench program under valgrind too; and measures the stack. The last line is 'N passed, M failed'. It is run after archives.sh. tests/reference
# compares the same calls with its own.
script=boundary
. "$(dirname -- "$0")/counted.sh" || { echo "0 passed, 1 failed"; exit 1; }

archive=target/staticlib/libmoqresam.a
strict=(-Wall -Wextra -Werror -pedantic -Iinclude)
sanitize=(-g -O1 -fsanitize=address,undefined -fno-sanitize-recover=all)

compile() {
    local to=$1 from=$2
    shift 2
    gcc -std=c99 "${strict[@]}" "$@" "$from" "$archive" -o "$work/$to"
}

# What the bench program prints, held to examples/bench.out.
bench_prints() {
    "$work/$1" >"$work/printed" && diff examples/bench.out "$work/printed"
}

# The tests' own count; `run` adds it, `counts` asks only that nothing failed. A status that does not agree with the count is a failure: under the
# sanitizers a fault may be found after the count is printed.
counts() {
    "$work/$1" >"$work/said" || return 1
    tail -n 1 "$work/said" | grep -q '^[1-9][0-9]* passed, 0 failed$'
}

# What the test says of failures and of measured stack is shown.
run() {
    local status line
    "$work/$1" >"$work/said"
    status=$?
    line=$(tail -n 1 "$work/said")
    if [[ $line =~ ^([1-9][0-9]*)\ passed,\ ([0-9]+)\ failed$ ]] && { [ "$status" -eq 0 ] || [ "${BASH_REMATCH[2]}" -gt 0 ]; }; then
        grep -E '^(failed|stack)' "$work/said"
        passed=$((passed + BASH_REMATCH[1]))
        failed=$((failed + BASH_REMATCH[2]))
    else
        failed=$((failed + 1))
        echo "boundary: $1: FAILED, status $status, last line: $line"
    fi
}

# What the header says of the archive.
calls_memset_alone() {
    [ "$(nm -u "$archive" | awk '$1 == "U" { print $2 }' | sort -u)" = memset ]
}

# The header twice in one unit, and in two units of one program, of which one uses nothing of it.
two_units() {
    printf '#include "moqresam.h"\n%.0s' 1 2 >"$work/unit.c"
    gcc -std=c99 "${strict[@]}" examples/bench.c "$work/unit.c" "$archive" -o "$work/two_units"
}

# The lines of code in the comment that the header begins with.
example_runs() {
    {
        printf '%s\n' '#include "moqresam.h"' '#include <stdio.h>' 'int main(void)' '{'
        sed -n '1,/\*\//s/^ \*     //p' include/moqresam.h
        printf '%s\n' 'return 0;' '}'
    } >"$work/example.c"
    compile example "$work/example.c" && [ "$("$work/example")" = "they fit" ]
}

# README's line that builds the bench program. What it builds is put into $work; by its own name it could be built at the top, where git ignores it.
readme_builds() {
    local line name
    line=$(sed -n 's/.*`\(gcc [^`]*examples\/bench\.c [^`]* -o [^` ]*\)`.*/\1/p' README.md)
    name=${line##* }
    grep -qxF "$name" .gitignore && [ ! -d "$name" ] && ${line% *} "$work/readme_bench" && bench_prints readme_bench
}

# The refusals' table and the header have the same numbers, with the same words.
words_agree() {
    sed -n '/^| number | why |/,/^$/s/^| \([0-9]*\) | \([^|]*\) |.*/\1 \2/p' docs/REFERENCE.md >"$work/words"
    compile refusal_texts tests/refusal_texts.c && "$work/refusal_texts" | diff "$work/words" -
}

try "archive calls memset alone" calls_memset_alone
try "header as C" gcc -std=c99 "${strict[@]}" -fsyntax-only -x c include/moqresam.h
try "header as C++" g++ -std=c++11 "${strict[@]}" -fsyntax-only -x c++ include/moqresam.h
try "header in two units" two_units
try "header's example" example_runs
try "bench builds by README's line" readme_builds
try "words of refusals as in docs/REFERENCE.md" words_agree
for program in tests/boundary examples/bench; do
    name=$(basename "$program")
    try "$name compiles" compile "$name" "$program.c" -O2
    try "$name compiles, sanitized" compile "${name}_sanitized" "$program.c" "${sanitize[@]}"
done
try "boundary_stack compiles" compile boundary_stack tests/boundary_stack.c -O2 -pthread
# The header's linkage shows only in a C++ program that is linked.
try "bench compiles as C++" g++ -std=c++11 "${strict[@]}" -O2 -x c++ examples/bench.c -x none "$archive" -o "$work/bench_cpp"
try "bench prints what it must" bench_prints bench
try "bench prints what it must, as C++" bench_prints bench_cpp
try "bench prints what it must, sanitized" bench_prints bench_sanitized
try "bench under valgrind" valgrind -q --error-exitcode=9 --leak-check=full "$work/bench"
try "boundary passes, sanitized" counts boundary_sanitized
run boundary
run boundary_stack

finished=yes
