# Sourced by the scripts that count, each of which sets $script to its name first: goes to the top of the tree, makes a folder $work, and counts
# into $passed and $failed. However such a script ends, its last line is 'N passed, M failed', and its exit status says the same; at its end it
# sets $finished to yes, and without that it was broken off, which is a failure.
set -u
unset CDPATH
cd -- "$(dirname -- "${BASH_SOURCE[0]}")/.." || { echo "0 passed, 1 failed"; exit 1; }

passed=0
failed=0
finished=no
work=$(mktemp -d) || { echo "0 passed, 1 failed"; exit 1; }
finish() {
    # Ends a stage that still runs beside the others (stages.sh).
    [ -z "${beside_group-}" ] || kill -- "-$beside_group" 2>/dev/null
    rm -rf "$work"
    if [ "$finished" != yes ]; then
        echo "$script: broken off"
        failed=$((failed + 1))
    fi
    echo "$passed passed, $failed failed"
    [ "$failed" -eq 0 ] && [ "$passed" -gt 0 ]
    exit $?
}
trap finish EXIT
trap 'exit 1' HUP INT TERM

# try WHAT COMMAND..: passes if the command does; what it says is shown if not.
try() {
    local what=$1
    shift
    if "$@" >"$work/log" 2>&1; then
        passed=$((passed + 1))
        echo "$script: $what: passed"
    else
        failed=$((failed + 1))
        cat "$work/log"
        echo "$script: $what: FAILED"
    fi
}
