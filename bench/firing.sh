#!/bin/sh
# Times a million firings over 10,000 nodes, of which one is ready, and of which 5,000 are. The times come on standard error.
# It takes the program that the gate left; where there is none, `rt run` proves and builds it first, in minutes.
case "${1:-}" in
-h | --help)
    sed -n '2,/^[^#]/s/^# \{0,1\}//p' "$0"
    exit
    ;;
esac
set -e
cd "$(dirname "$0")/../crates/bench_firing"
if [ -x out/bench_firing ]; then
    exec out/bench_firing
fi
rt run
