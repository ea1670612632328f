#!/usr/bin/env bash
# The library and the programs against an independent implementation of the papers, tests/reference: compiles the reference with the two
# archives, and compares on random and on all small tables, texts and sequencers. The last line is 'N passed, M failed'.
# It is run after tools/prove.py, which leaves the programs in target/bin, and archives.sh.
#
#     tests/reference.sh [SEED]            the comparison of the gate
#     tests/reference.sh quick [SEED]      a tenth of the cases
#     tests/reference.sh soak [SEED]       twenty times as many cases, the seed from the date
#     tests/reference.sh WHAT SEED CASE    one case of one comparison again: a failed case is printed with these words
#
# The seed is printed. Without SEED it comes from the commit, so that each commit tries other cases; where git names no commit it is 1.
script=reference
. "$(dirname -- "$0")/counted.sh" || { echo "0 passed, 1 failed"; exit 1; }

usage() {
    echo "usage: tests/reference.sh [quick|soak] [SEED] or tests/reference.sh WHAT SEED CASE"
    exit 1
}

# take_seed_of_commit: sets $seed to the first twelve digits of the commit, as a number, or to 1, and $origin to which of the two it is. The commit
# of a repository that belongs to someone else will do as well.
take_seed_of_commit() {
    local commit
    commit=$(git -c safe.directory='*' rev-parse --verify HEAD 2>/dev/null)
    if [[ $commit =~ ^[0-9a-f]{40,}$ ]]; then
        seed=$((16#${commit:0:12})) origin=", of the commit"
    else
        seed=1 origin=", the fixed one: git names no commit"
    fi
}

is_number() {
    [[ $1 =~ ^(0|[1-9][0-9]{0,18})$ ]]
}

times=10 limit=600 only="" number="" origin=""
case "${1-}" in
    quick) times=1; shift ;;
    soak) times=200 limit=14400; set -- "${2-$(date +%s)}" "${@:3}" ;;
esac
case $# in
    0) take_seed_of_commit ;;
    1) seed=$1 ;;
    3) only=$1 seed=$2 number=$3; is_number "$number" || usage ;;
    *) usage ;;
esac
is_number "$seed" || usage

# run WHAT ARGUMENT..: shows what the comparison says, and adds its own count. One that ends without a count, late, or with a status that does
# not agree with its count is a failure; if it ended within a case, that case is named.
run() {
    local what=$1 status line
    rm -f "$work/case"
    REFERENCE_CASE=$work/case timeout "$limit" "$work/reference" "$@" >"$work/said" 2>&1
    status=$?
    line=$(tail -n 1 "$work/said")
    sed '$d' "$work/said"
    if [[ $line =~ ^([0-9]+)\ passed,\ ([0-9]+)\ failed$ ]] && { [ "$status" -eq 0 ] || [ "${BASH_REMATCH[2]}" -gt 0 ]; }; then
        passed=$((passed + BASH_REMATCH[1]))
        failed=$((failed + BASH_REMATCH[2]))
        echo "reference: $what: $line"
    else
        failed=$((failed + 1))
        echo "reference: $what: FAILED, status $status, last line: $line"
        name_case "$what"
    fi
}

# name_case WHAT: says in which case the comparison ended, and how to run it again. Where no case was running, the note is empty or not there.
name_case() {
    local at
    [ -s "$work/case" ] || return
    read -r at <"$work/case"
    echo "ended in: $1, seed $seed, case $at; run again: bash tests/reference.sh $1 $seed $at"
}

# compare WHAT COUNT ARGUMENT..: a comparison with so many cases in the gate, or the one case of it that is asked for.
compare() {
    local what=$1 count=$2
    shift 2
    if [ -z "$only" ]; then
        run "$what" "$seed" "$((count * times / 10))" "$@"
    elif [ "$only" = "$what" ]; then
        run "$what" "$seed" 1 "$@" "$number"
        only=done
    fi
}

echo "reference: seed $seed$origin"
try "comparison compiles" bash tests/compile_reference.sh "$work/reference"
[ -n "$only" ] || run selftest tests/cases tests/clash
[ -n "$only" ] || run examples examples "$work/run" target/bin/sequencer
compare smaller 100
compare tables 100000
compare texts 25000
compare demand3 5000
compare flags 100000
compare ends 30000
compare substitution 30000
compare properties 50000
compare readback 12000
compare mutations 20000 tests/cases tests/clash "$work/run" target/bin/sequencer target/bin/clashes
compare program 300 "$work/run" target/bin/sequencer target/bin/clashes
[ -z "$only" ] || [ "$only" = done ] || usage

finished=yes
