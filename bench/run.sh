#!/usr/bin/env bash
# Times laying and deciding for the first 125, 250, 500 and 1,000 lines of the list, here and in BuDDy (Debian's libbdd-dev).
# Use: (cd crates/bench && rt run < stdin) && bench/run.sh
set -e
cd "$(dirname "$0")/.."
peer=$(mktemp)
part=$(mktemp)
g++ -O2 -o "$peer" bench/buddy.cpp -lbdd
for count in 125 250 500 1000; do
    head -n "$count" crates/bench/stdin > "$part"
    echo "== $count lines"
    crates/bench/out/bench < "$part"
    echo "BuDDy:"
    "$peer" < "$part"
done
rm -f "$peer" "$part"
