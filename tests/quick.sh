#!/usr/bin/env bash
# The short test of a change: looks at the layout, proves what has changed, holds the contracts and the list of claims to the sources, draws the picture
# again, tries the programs on the cases, and makes a tenth of the comparison with the independent implementation. Unlike the gate it tries no wrong
# program, and its proofs are not the verdict, since they are made over what earlier ones kept. Standard error says what is proved and built. The last line
# is 'N passed, M failed', and the exit status says the same.
script=quick
. "$(dirname -- "$0")/counted.sh" || { echo "0 passed, 1 failed"; exit 1; }
. tests/stages.sh || exit 1

stage "layout" bash tests/layout.sh
stage "contracts" python3 tests/contracts.py
stage "claims" python3 tests/claims.py
stage "picture" python3 tests/draw_test.py
if stage "proofs" python3 tools/prove.py; then
    counted "cases" python3 tests/cases.py
    stage "archives" bash tests/archives.sh
    counted "reference" bash tests/reference.sh quick
else
    echo "quick: the programs and archives that are there are of another state, and are not tried"
fi

finished=yes
