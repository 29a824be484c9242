#!/bin/sh
# Finds the least certificates of the largest tables, of tables whose windows close only near 100,000 ticks, of tables
# where none closes, and of tables whose streams all differ, and compares with a plain Rust program that makes the same
# search. The product reads its file too; the first row shows what that takes.
# usage: bench/find/run.sh PROGRAM
set -eu
program=$1
here=$(cd "$(dirname "$0")" && pwd)
work=$(mktemp -d)
trap 'rm -rf "$work"' EXIT
rustc -O --edition 2021 -o "$work/peer" "$here/peer.rs"
best() { # seconds, the best of five
    b=
    for _ in 1 2 3 4 5; do
        s=$(date +%s.%N); "$@" > "$work/out" || :; e=$(date +%s.%N)
        b=$(awk -v s="$s" -v e="$e" -v b="$b" 'BEGIN { t = e - s; if (b == "" || t < b) b = t; printf "%.4f", b }')
    done
    echo "$b"
}
for kind in near far never mixed; do
    "$here/tables.sh" $kind > "$work/tables.toml"
    peer=$(best "$work/peer" $kind); tail -n 1 "$work/out"
    product=$(best "$program" find "$work/tables.toml"); cut -c 1-70 "$work/out"
    awk -v kind=$kind -v p="$peer" -v s="$product" 'BEGIN { printf "%s: peer %.4f s, product %.4f s: ratio %.2f\n", kind, p, s, s / p }'
done
