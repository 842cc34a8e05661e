#!/bin/bash
# The host tests: C programs, those that look at proved code linked with the archive of the crate
# `probe` or `s57`, or running the program `listing`; then the example host. Builds them, runs each,
# and adds up what they count; the last line is 'N passed, M failed', and the status is 0 only where
# nothing failed. Wants `rt`, and the compilers that .ci/run installs.
#
# bench/build.sh ARCHIVE compiles the programs, bench/run.sh runs one, and bench/tests.txt names those
# that are tests, one a line ('#' starts a comment). As many of them run side by side as there are processors,
# at most four. A test that doesn't end with the line 'N passed, M failed', or that takes over LIMIT seconds,
# has failed.
set -u
if ! cd "$(dirname "$0")/.." || ! . bench/count.sh; then
    echo '0 passed, 1 failed'
    exit 1
fi

limit=${LIMIT:-1200}
archives=$PWD/target/staticlib
export BENCH_OUT=$PWD/target/bench

# ---- build, from nothing
rm -rf "$BENCH_OUT" "$archives" target/host
mkdir -p "$BENCH_OUT"
for crate in probe s57; do
    if ! bench/archives.sh "$crate" || [ ! -f "$archives/lib$crate.a" ]; then
        fault "bench/archives.sh $crate made no $archives/lib$crate.a"
    fi
done
# the program that compare_listing runs; after rt ci it is there, and nothing is proved again
if ! bench/archives.sh listing || [ ! -x target/bin/listing ]; then
    fault 'bench/archives.sh listing made no target/bin/listing'
fi
bench/build.sh "$archives/libprobe.a" || fault 'bench/build.sh could not build every program'

counted 'the directions in bench' "$BENCH_OUT/directions.log" bench/check-directions.sh

# ---- run: several tests side by side, each with a log of its own, which is shown whole when its turn in the list has come
mapfile -t tests < <(sed -e 's/#.*//' -e 's/[[:space:]]//g' -e '/^$/d' bench/tests.txt)
[ "${#tests[@]}" -gt 0 ] || fault 'bench/tests.txt names no test'
lanes=$(nproc)
[ "$lanes" -le 4 ] || lanes=4

# A test has ended when it has left its status and its seconds.
run_test() { # NAME
    local start=$SECONDS
    timeout "$limit" bench/run.sh "$1" >"$BENCH_OUT/$1.log" 2>&1 </dev/null
    echo "$? $((SECONDS - start))" >"$BENCH_OUT/$1.ended"
}

show_test() { # NAME
    local status=none seconds=0
    [ ! -s "$BENCH_OUT/$1.ended" ] || read -r status seconds <"$BENCH_OUT/$1.ended"
    echo "---- host test $1, $seconds s"
    cat "$BENCH_OUT/$1.log"
    add_count "host test $1" "$BENCH_OUT/$1.log" "$status"
}

# Those that have ended, up to the first that hasn't.
shown=0
show_ended() {
    while [ "$shown" -lt "${#tests[@]}" ] && [ -s "$BENCH_OUT/${tests[shown]}.ended" ]; do
        show_test "${tests[shown]}"
        shown=$((shown + 1))
    done
}

for name in "${tests[@]}"; do
    while [ "$(jobs -pr | wc -l)" -ge "$lanes" ]; do
        wait -n
        show_ended
    done
    run_test "$name" &
done
wait
for name in "${tests[@]:shown}"; do
    show_test "$name"
done

# ---- alone: the example host is cut off at moments that are measured, which wants a quiet machine
counted 'the example host' "$BENCH_OUT/host.log" timeout "$limit" host/tests.sh
close
