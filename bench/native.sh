#!/bin/sh
# Times on Arm. The toolchain compiles for x86-64 alone, and what an emulator runs can't be timed. So the module of the proved code is compiled for this very
# machine (bench/module.sh), and the speed programs are built around it, the C readers by gcc for this machine too. What is timed is the proved code, compiled
# in another way than the archive that a host links.
# usage: bench/native.sh; then target/native/speed_judge [ROUNDS] [--csv], speed_admit, speed_apply
# shellcheck disable=SC2086
# (flags are meant to be split)
set -eu

top=$(cd "$(dirname "$0")/.." && pwd -P)
out=$top/target/native
[ "$(uname -m)" = aarch64 ] || { echo 'bench/native.sh: on x86-64 bench/build.sh makes programs that can be timed' >&2; exit 2; }
# shellcheck source=module.sh
. "$top/bench/module.sh"

rm -rf "$out"
mkdir -p "$out"
keep_module s57
compile_module s57 "$out/s57.o"
cd "$top"
strict='-std=c11 -Wall -Wextra -Wpedantic -Werror'
for part in bench/shared/*.c bench/reader/*.c bench/generators/*.c bench/speed/speed.c; do
    gcc $strict -O2 -c "$part" -o "$out/$(basename "$part" .c).o"
done
for part in bench/tuned/*.c; do
    gcc $strict -O3 -c "$part" -o "$out/$(basename "$part" .c).o"
done
for program in speed_judge speed_admit speed_apply; do
    gcc $strict -O2 "bench/speed/$program.c" "$out"/*.o -o "$out/$program"
done
