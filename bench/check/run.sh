#!/bin/sh
# Judges the largest tables, with windows of 100,000 ticks, and compares with a plain Rust program that makes the same
# search: streams of one minimum, which are one term of a bus's bound, and 16 different ones on each bus. The product
# reads its two files too; a window of 9 shows what that takes. Then the product by 1 and by 4 workers.
# usage: bench/check/run.sh PROGRAM
set -eu
program=$1
here=$(cd "$(dirname "$0")" && pwd)
work=$(mktemp -d)
trap 'rm -rf "$work"' EXIT
rustc -O --edition 2021 -o "$work/peer" "$here/peer.rs"
"$here/tables.sh" > "$work/same.toml"
"$here/tables.sh" different > "$work/different.toml"
"$here/tables.sh" certificate > "$work/long.json"
"$here/tables.sh" certificate 9 > "$work/short.json"
best() { # seconds, the best of five
    b=
    for _ in 1 2 3 4 5; do
        s=$(date +%s.%N); "$@" > "$work/out"; e=$(date +%s.%N)
        b=$(awk -v s="$s" -v e="$e" -v b="$b" 'BEGIN { t = e - s; if (b == "" || t < b) b = t; printf "%.4f", b }')
    done
    echo "$b"
}
for kind in same different; do
    tables="$work/$kind.toml"
    peer=$(best "$work/peer" 100000 14 6 $([ $kind = same ] || echo different)); cat "$work/out"
    short=$(best "$program" check "$tables" "$work/short.json"); cat "$work/out"
    long=$(best "$program" check "$tables" "$work/long.json"); cat "$work/out"
    awk -v k=$kind -v p="$peer" -v s="$short" -v l="$long" 'BEGIN { printf "%s minimums: peer %.4f s, product %.4f s, of it reading %.4f s: ratio %.2f, of the search alone %.2f\n", k, p, l, s, l / p, (l - s) / p }'
    one=$(best "$program" check "$tables" "$work/long.json" --workers 1); cat "$work/out"
    four=$(best "$program" check "$tables" "$work/long.json" --workers 4); cat "$work/out"
    awk -v k=$kind -v s="$short" -v l="$long" -v o="$one" -v f="$four" 'BEGIN { printf "%s minimums: 1 worker %.4f s, %.2f of one thread; 4 workers %.4f s: the search is %.2f times as fast as by one thread\n", k, o, o / l, f, (l - s) / (f - s) }'
done
