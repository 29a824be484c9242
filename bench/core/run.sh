#!/bin/sh
# Prints how many events a second the concentrator takes, ten million of the small tables and of 64 buses of 16 streams,
# and a plain Rust program that keeps the same state: the best of five rounds of each, and the ratio of the times. The
# sums of both are the same. What earlier checks kept in out/ is taken along.
# usage: bench/core/run.sh
set -eu
here=$(cd "$(dirname "$0")" && pwd)
root=$(cd "$here/../.." && pwd)
work=$(mktemp -d)
trap 'rm -rf "$work"' EXIT
rustc -O --edition 2021 -o "$work/peer" "$here/peer.rs"
"$here/../build.sh" "$work" core_bench 'dc_build dc_core dc_device dc_event dc_document dc_tables dc_word' "$here/main.rt.txt" "$here/laps.rt.txt"
"$here/../check/tables.sh" > "$work/large.toml"
cp "$root/examples/small.toml" "$work/small.toml"
for size in small large; do
    "$work/crates/core_bench/out/core_bench" < "$work/$size.toml" > "$work/proved"
    "$work/peer" "$size" > "$work/plain"
    awk -v size="$size" '
        FNR == NR { if (!plain || $2 < plain) plain = $2; sum = $7; next }
        { if (!proved || $2 < proved) proved = $2; if ($7 "" != sum "") exit 1 }
        END { printf "%s: proved %.1f, plain Rust %.1f million events/s, ratio %.2f\n", size, 10 / proved * 1e6, 10 / plain * 1e6, proved / plain }
    ' "$work/plain" "$work/proved"
done
