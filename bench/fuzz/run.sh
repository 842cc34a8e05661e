#!/bin/sh
# Fuzzes the loader, guided by where the C readers and the proved code go: each input runs through all of them, and all that a host sees must be the same.
# usage: bench/fuzz/run.sh SECONDS [keep]
# SECONDS: by the clock; 0 fuzzes nothing and only looks at the corpus. `keep` puts the smallest inputs that go everywhere the run went in the place of those of
# bench/fuzz/corpus; one that showed a fault once is named *-fault there and stays.
# On x86-64 it wants target/staticlib/libs57.a and libprobe.a, as `bench/archives.sh` writes them, and breakpoints show where they go (watch.h). On Arm, where those don't
# run, it has the toolchain make them again and compiles the modules that they are made of for this very machine (bench/module.sh), so that the fuzzer sees where
# they go as it does of the readers; that wants the crates proved.
# Everything goes to target/fuzz; found/ there stays from run to run, and the next run begins with it. An input that makes a side differ ends the run with 1, and is
# left there as crash-*: `bench/run.sh replay FILE` shows it again.
set -eu

seconds=${1:?usage: bench/fuzz/run.sh SECONDS [keep]}
keep=${2:-}
bench=$(cd "$(dirname "$0")/.." && pwd -P)
top=$(dirname "$bench")
out=$top/target/fuzz
archives=$top/target/staticlib
corpus=$bench/fuzz/corpus
strict='-std=c11 -Wall -Wextra -Wpedantic -Werror -g'

machine=$(uname -m)
# shellcheck source=../compiler.sh
. "$bench/compiler.sh"
need clang clang libc6-dev
[ -n "$(find /usr/lib/llvm-*/lib/clang -name "libclang_rt.fuzzer-$machine.a" 2>/dev/null)" ] || need no-such-command libclang-rt-dev
need llvm-cov llvm
need objdump binutils

# ---- build: the readers in four ways, all else once
# shellcheck disable=SC2086
# (flags are meant to be split)
compile() { # OBJECTS FLAGS FILE..
    objects=$out/objects/$1
    flags=$2
    shift 2
    mkdir -p "$objects"
    for file in "$@"; do
        clang $strict $flags -c "$file" -o "$objects/$(echo "${file%.c}" | tr / _).o"
    done
}

# The proved code is the archives, as they are, or on Arm the objects of their modules that were compiled in the way named.
# shellcheck disable=SC2086
link_program() { # PROGRAM FLAGS READERS [PROVED]
    program=$1
    flags=$2
    readers=$out/objects/$3
    proved=${4:-}
    set --
    [ -z "$proved" ] || set -- "$archives/libs57.a" "$archives/libprobe.a"
    [ -z "$proved" ] || [ "$machine" = x86_64 ] || set -- "$out/objects/$proved/s57.o" "$out/objects/$proved/probe.o"
    clang $strict -O2 -no-pie $flags "fuzz/${program%%-*}.c" "$readers"/*.o "$out"/objects/parts/*.o "$@" -o "$out/$program"
    [ "$machine" != x86_64 ] || fuzz/blocks.sh "$out/$program" >"$out/$program.blocks"
}

# On Arm: the modules as they are; so that the fuzzer sees where they go; with a flag at each block (fuzz/watch_flags.c). The last two for the functions whose
# blocks fuzz/blocks.sh lists.
compile_modules() {
    # shellcheck source=../module.sh
    . "$bench/module.sh"
    printf '%s\n' 'src:*' 'fun:*::*' 'fun:s57_*' 'fun:probe_show*' >"$out/functions.txt"
    mkdir -p "$out/objects/proved" "$out/objects/proved-guided" "$out/objects/proved-chosen"
    for crate in s57 probe; do
        keep_module "$crate"
        compile_module "$crate" "$out/objects/proved/$crate.o"
        compile_module "$crate" "$out/objects/proved-guided/$crate.o" -fsanitize=fuzzer-no-link -fsanitize-coverage-allowlist="$out/functions.txt"
        compile_module "$crate" "$out/objects/proved-chosen/$crate.o" -fsanitize-coverage=bb,no-prune,inline-bool-flag \
            -fsanitize-coverage-allowlist="$out/functions.txt"
    done
}

watch=fuzz/watch.c
[ "$machine" = x86_64 ] || watch=fuzz/watch_flags.c
cd "$bench"
rm -rf "$out/start" "$out/small" "$out/objects"
mkdir -p "$out/found" "$out/start" "$out/small" "$corpus"
compile guided '-O2 -fsanitize=fuzzer-no-link' reader/*.c tuned/*.c
compile sanitized '-O1 -fsanitize=fuzzer-no-link,address,undefined -fno-sanitize=pointer-overflow -fno-sanitize-recover=all' reader/*.c tuned/*.c
compile counted '-O1 -fprofile-instr-generate -fcoverage-mapping' reader/*.c tuned/*.c
compile chosen '-O2 -fsanitize-coverage=inline-8bit-counters' reader/*.c
compile chosen -O2 tuned/*.c
compile parts -O2 shared/*.c generators/*.c tests/areas.c tests/tally.c tests/ask_show.c fuzz/input.c fuzz/check.c \
    fuzz/pieces.c fuzz/follow.c fuzz/mutate.c fuzz/less.c "$watch"
[ "$machine" = x86_64 ] || compile_modules
link_program target -fsanitize=fuzzer guided proved-guided
link_program target-sanitized -fsanitize=fuzzer,address,undefined sanitized proved
link_program replay -fprofile-instr-generate counted proved
link_program choose '' chosen proved-chosen
link_program seeds -fprofile-instr-generate counted

# ---- what is covered: lines and branches of the readers, and answers; with --all the replay says which codes are missing
covered() { # NAME FOLDER [--all]
    echo "---- $1: $(find "$2" -type f | wc -l) inputs, $(find "$2" -type f -exec cat {} + | wc -c) bytes"
    LLVM_PROFILE_FILE=$out/$1.profraw "$out/replay" ${3:+"$3"} "$2"/* || true
    llvm-profdata merge "$out/$1.profraw" -o "$out/$1.profdata"
    for part in reader tuned; do
        llvm-cov report "$out/replay" -instr-profile="$out/$1.profdata" "$bench/$part"/*.c | grep '^TOTAL' |
            awk -v part="$part" '{ print part ": " $(NF - 5) - $(NF - 4) " of " $(NF - 5) " lines, " $(NF - 2) - $(NF - 1) " of " $(NF - 2) " branches" }'
    done
}

# ---- run
cd "$out"
LLVM_PROFILE_FILE=$out/seeds.profraw ./seeds start
if [ "$seconds" -gt 0 ]; then
    # a shell of its own, so that its children's processor time is the fuzzer's
    (
        status=0
        [ "$machine" != x86_64 ] || export FUZZ_BLOCKS="$out/target.blocks"
        nice -n 19 ./target -max_total_time="$seconds" -max_len=16384 -timeout=60 -reload=0 -print_final_stats=1 \
            -artifact_prefix="$out/" found start "$corpus" >run.log 2>&1 || status=$?
        times >times.log
        exit "$status"
    ) || { grep -E 'DIFFERS|ERROR|Test unit' run.log; exit 1; }
    grep -E '^#[0-9]+.*(INITED|DONE)|^stat::' run.log
    echo "processor time, user and system: $(sed -n 2p times.log)"
fi

# ---- the readers under the sanitizers, over all that was found
FUZZ_LARGEST=100000000 ./target-sanitized -runs=0 -max_len=1000000 -timeout=600 found start "$corpus" >sanitized.log 2>&1 ||
    { grep -A 20 -E 'ERROR|runtime error|DIFFERS' sanitized.log; exit 1; }

# ---- few and small inputs that go everywhere
find found start "$corpus" -type f -print0 | FUZZ_BLOCKS=$out/choose.blocks xargs -0 -s 1500000 ./choose small
covered start start
covered small small --all
if [ "$keep" = keep ]; then
    find "$corpus" -type f ! -name '*-fault' -delete
    cp small/* "$corpus"
fi
