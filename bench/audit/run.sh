#!/bin/sh
# Audits recordings of 10,000 and of 100,000 events of 64 buses of 16 streams, each sent under a label, and compares with a
# plain Rust program that keeps the same histories. The product reads its tables and its certificate too.
# usage: bench/audit/run.sh PROGRAM
set -eu
program=$1
here=$(cd "$(dirname "$0")" && pwd)
work=$(mktemp -d)
trap 'rm -rf "$work"' EXIT
rustc -O --edition 2021 -o "$work/peer" "$here/peer.rs"
"$here/made.py" tables > "$work/tables.toml"
"$program" find "$work/tables.toml" > "$work/certificate.json"
age=$(sed 's/.*"age":\([0-9]*\).*/\1/' "$work/certificate.json")
best() { # seconds, the best of seven
    b=
    for _ in 1 2 3 4 5 6 7; do
        s=$(date +%s.%N); "$@" < "$work/trace" > "$work/out" || :; e=$(date +%s.%N)
        b=$(awk -v s="$s" -v e="$e" -v b="$b" 'BEGIN { t = e - s; if (b == "" || t < b) b = t; printf "%.4f", b }')
    done
    echo "$b"
}
for events in 0 10000 100000; do
    "$here/made.py" $events > "$work/trace"
    [ $events = 0 ] && : > "$work/trace"
    peer=$(best "$work/peer" "$age"); cp "$work/out" "$work/wanted"
    product=$(best "$program" audit "$work/tables.toml" "$work/certificate.json")
    cmp "$work/out" "$work/wanted"
    awk -v n=$events -v p="$peer" -v s="$product" 'BEGIN { printf "%d events: peer %.4f s, product %.4f s: ratio %.2f\n", n, p, s, s / p }'
done
