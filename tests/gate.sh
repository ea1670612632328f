#!/usr/bin/env bash
# The whole gate. Every stage runs, whatever an earlier one said; the last line is the sum, 'N passed, M failed', and the exit status is 0
# only if M is 0. However the script ends, it ends with such a line. Before it stands where the time went: the seconds of each stage, and those
# of the wrong programs of each crate.
#
# `rt ci` comes first, on the tree as it stands: it proves every crate, tries every wrong program, runs every program, and refuses what is not laid out as
# `rt fmt` does. Nothing is built or copied before it.
script=gate
. "$(dirname -- "$0")/counted.sh" || { echo "0 passed, 1 failed"; exit 1; }
. tests/stages.sh || exit 1

# A wrong program that cannot be applied or read fails nothing in `rt ci`; its line `rt: ok` counts those as bad.
no_bad_edits() {
    grep -q '^rt: ok' "$work/proofs" && ! grep -q '^rt: ok.*, [0-9][0-9]* bad' "$work/proofs"
}

# What times.py reads stays in $work/edits.
edits() {
    local status
    python3 tests/edits.py >"$work/edits"
    status=$?
    cat "$work/edits"
    return "$status"
}

counted "proofs" rt ci
cp "$work/log" "$work/proofs"
stage "no bad edits" no_bad_edits
stage "contracts" python3 tests/contracts.py
stage "contracts that are wrong" python3 tests/contracts_test.py
stage "wrong programs that show nothing" python3 tests/wrong_programs_test.py
stage "edits that show nothing" python3 tests/edits_test.py
stage "picture" python3 tests/draw_test.py
stage "tools" python3 tests/tools_test.py
stage "claims" python3 tests/claims.py
stage "programs" python3 tools/prove.py
stage "edits" edits
counted "cases" python3 tests/cases.py
stage "archives" bash tests/archives.sh
# No other stage needs this one.
beside python3 tests/cases.py valgrind -q --error-exitcode=9
counted "boundary" bash tests/boundary.sh
counted "reference" bash tests/reference.sh
stage "bench" bash bench/run.sh agree
counted_beside "cases under valgrind"

python3 tests/times.py "$work/stages" "$work/edits" || failed=$((failed + 1))
finished=yes
