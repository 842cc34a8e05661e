#!/bin/sh
# Runs the example host, on Arm under the toolchain's emulator.
# usage: host/judge.sh CELL
set -eu
top=$(cd "$(dirname "$0")/.." && pwd -P)
BENCH_OUT=$top/target/host exec "$top/bench/run.sh" judge "$@"
