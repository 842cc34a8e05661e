#!/bin/sh
# Runs the example host that keeps a chart in a folder, on Arm under the toolchain's emulator.
# usage: host/unit.sh admit BASE FOLDER
#        host/unit.sh offer UPDATE FOLDER
#        host/unit.sh follow FOLDER UPDATE..
#        host/unit.sh show FOLDER
set -eu
top=$(cd "$(dirname "$0")/.." && pwd -P)
BENCH_OUT=$top/target/host exec "$top/bench/run.sh" unit "$@"
