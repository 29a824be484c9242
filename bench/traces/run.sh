#!/bin/sh
# Prints lines per second of a trace of a million lines, read into events by `TraceReader`, and by a plain Rust program
# that reads the same. The sums of both are the same. What earlier checks kept in out/ is taken along.
# usage: bench/traces/run.sh
set -eu
here=$(cd "$(dirname "$0")" && pwd)
work=$(mktemp -d)
trap 'rm -rf "$work"' EXIT
awk 'BEGIN {
    lines = 0
    for (tick = 0; lines < 1000000; tick++) {
        if (tick % 10 == 0) { printf "A A %08X\n", (tick * 7919) % 16777216 * 256 + 193; lines++ }
        if (lines < 1000000) { print "R R1"; lines++ }
        if (lines < 1000000) { print "S O"; lines++ }
        if (lines < 1000000) { print "T"; lines++ }
    }
}' > "$work/trace"
rustc -O --edition 2021 -o "$work/peer" "$here/peer.rs"
"$here/../build.sh" "$work" trace_bench 'dc_build dc_device dc_event dc_tables dc_word' "$here/main.rt.txt"
for round in 1 2 3; do
    echo "proved"
    "$work/crates/trace_bench/out/trace_bench" < "$work/trace"
    echo "plain Rust"
    "$work/peer" < "$work/trace"
done
