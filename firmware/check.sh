#!/usr/bin/env bash
# Builds the static library and a C program that calls it, runs it on the samples, and compares.
set -eu
cd "$(dirname "$0")/.."
(cd crates/firmware && rt lib)
work=target/firmware
mkdir -p "$work"
gcc -std=c11 -O2 -Wall -Wextra -Werror -Iinclude firmware/decide.c crates/firmware/out/libfirmware.a -pthread -o "$work/decide"
cp firmware/samples/* "$work"

# a sample at each limit, too long to keep: name, how often a line stands, the line, the answer
limit() {
    yes "$3" | head -n "$2" >"$work/$1.list"
    echo "0.0.0.0 0.0.0.0 0 0 0" >"$work/$1.headers"
    echo "$4" >"$work/$1.answers"
}
limit lines_1024 1024 "access-list 1 permit any" 1
limit lines_1025 1025 "access-list 1 permit any" 262
limit bytes_65536 65536 "" 0
limit bytes_65537 65537 "" 266

failed=0
for list in "$work"/*.list; do
    sample=${list%.list}
    if "$work/decide" "$list" <"$sample.headers" >"$work/out" && cmp "$work/out" "$sample.answers"; then
        echo "$sample: as it should be"
    else
        echo "$sample: FAILED"
        failed=1
    fi
done
exit "$failed"
