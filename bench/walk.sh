#!/bin/sh
# Times the classes of a graph of 30,000 nodes and 40,000 edges, and of one of twice the size. The times come on standard error.
# It takes the program that the gate left; where there is none, `rt run` proves and builds it first, in minutes.
case "${1:-}" in
-h | --help)
    sed -n '2,/^[^#]/s/^# \{0,1\}//p' "$0"
    exit
    ;;
esac
set -e
cd "$(dirname "$0")/../crates/bench_walk"
if [ -x out/bench_walk ]; then
    exec out/bench_walk large
fi
rt run -- large
