# Sourced by gate.sh and quick.sh behind counted.sh: runs stages one after the other and counts them. A stage's last line says what came of it;
# $work/stages has a line for each: its seconds, a tab, its name.

# end_stage NAME SECONDS WORDS: says what came of a stage, and how long it took.
end_stage() {
    printf '%s\t%s\n' "$2" "$1" >>"$work/stages"
    echo "$script: $1: $3 ($2 s)"
}

# stage NAME COMMAND..: a stage that passes or fails as one; its status is the command's.
stage() {
    local name=$1 began=$SECONDS
    shift
    if "$@"; then
        passed=$((passed + 1))
        end_stage "$name" "$((SECONDS - began))" passed
    else
        failed=$((failed + 1))
        end_stage "$name" "$((SECONDS - began))" FAILED
        return 1
    fi
}

# count NAME SECONDS STATUS FILE: counts a stage by the last line of what it printed, 'N passed, M failed'. It fails too if it has no such line, passes
# nothing, or has an exit status that contradicts the line.
count() {
    local name=$1 seconds=$2 status=$3 line
    line=$(tail -n 1 "$4")
    if [[ $line =~ ^(0|[1-9][0-9]{0,8})\ passed,\ (0|[1-9][0-9]{0,8})\ failed$ ]]; then
        local good=${BASH_REMATCH[1]} bad=${BASH_REMATCH[2]}
        if [ "$bad" -eq 0 ] && { [ "$status" -ne 0 ] || [ "$good" -eq 0 ]; }; then
            bad=1
        fi
        passed=$((passed + good))
        failed=$((failed + bad))
        end_stage "$name" "$seconds" "$good passed, $bad failed"
    else
        failed=$((failed + 1))
        end_stage "$name" "$seconds" "FAILED, no count"
    fi
}

# counted NAME COMMAND..: a stage that counts for itself. What it printed stays in $work/log until the next one.
counted() {
    local name=$1 began=$SECONDS status
    shift
    "$@" 2>&1 | tee "$work/log"
    status=${PIPESTATUS[0]}
    count "$name" "$((SECONDS - began))" "$status" "$work/log"
}

# beside COMMAND..: starts a stage that counts for itself and runs beside those that follow. It has a process group of its own, $beside_group, so that
# it can be ended with all that it started.
beside() {
    local began=$SECONDS
    set -m
    { "$@" >"$work/beside" 2>&1 </dev/null; echo "$? $((SECONDS - began))" >"$work/ended"; } &
    set +m
    beside_group=$!
}

# counted_beside NAME: waits for that stage, shows what it printed, and counts it.
counted_beside() {
    local status=1 seconds=0
    wait "$beside_group"
    read -r status seconds <"$work/ended"
    cat "$work/beside"
    count "$1" "$seconds" "$status" "$work/beside"
}
