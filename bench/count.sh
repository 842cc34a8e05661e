# shellcheck shell=bash
# Counting, for .ci/run and bench/host-tests.sh: what passed, what failed, and the closing line.
passed=0
failed=0

fault() { # WHAT..
    echo "FAILED: $*"
    failed=$((failed + 1))
}

# Ends the script with the sum of all counts as its last line; status 0 only where nothing failed.
close() {
    echo "$passed passed, $failed failed"
    [ "$failed" -eq 0 ]
    exit
}

# Adds the count at the end of what a command said, which is in LOG. One that ended with a status of its own, or
# whose last line is no count, or that counted nothing, has failed.
add_count() { # NAME LOG STATUS
    local name=$1 status=$3 last
    last=$(tail -n 1 "$2")
    if [[ ! $last =~ ^([0-9]+)\ passed,\ ([0-9]+)\ failed$ ]]; then
        fault "$name ended with status $status and no count"
        return
    fi
    local good=${BASH_REMATCH[1]} bad=${BASH_REMATCH[2]}
    passed=$((passed + good))
    failed=$((failed + bad))
    if [ "$bad" -eq 0 ]; then
        [ "$good" -gt 0 ] || fault "$name counted nothing"
        [ "$status" -eq 0 ] || fault "$name ended with status $status"
    fi
}

# Runs a command that counts, shows all that it says and keeps it in LOG, and adds its count.
counted() { # NAME LOG COMMAND..
    local name=$1 log=$2
    shift 2
    echo "---- $name"
    "$@" </dev/null 2>&1 | tee "$log"
    add_count "$name" "$log" "${PIPESTATUS[0]}"
}
