#!/bin/sh
# Prints machine, date and kit, and the seconds of docs/MEASUREMENTS.md but those of the gate, which are `time .ci/run`. It counts no instructions and
# no pages, and runs no other compiler.
#
#     bench/measure.sh [DFC]
#
# DFC is the program to be timed, crates/dfc/out/dfc of the gate without it. Run it at the top, after the gate, on an idle machine; it takes some minutes.
# After tools/build, with build/dfc, it ends where the first program is missing that only the gate makes.
case "${1:-}" in
-h | --help)
    sed -n '2,/^[^#]/s/^# \{0,1\}//p' "$0"
    exit
    ;;
esac
set -e
cd "$(dirname "$0")/.."
dfc=${1:-crates/dfc/out/dfc}
date
grep -m1 'model name' /proc/cpuinfo
nproc
rt version
echo "== reading and regions"
python3 bench/reading.py "$dfc"
echo "== firing"
python3 bench/orders.py "$dfc"
echo "== printing and rewriting"
python3 bench/printing.py "$dfc"
echo "== a large net that is no program"
crates/bench_firing/out/bench_firing 2>&1
echo "== classes of large graphs"
crates/bench_walk/out/bench_walk large 2>&1
