#!/bin/sh
# Prints how long the second opinion takes for a recording of 100,000 events of 64 buses of 16 streams: the replies, the
# budgets and the sources' minimum, and a plain Rust program that answers the same; the best of five rounds of each, and
# the ratio. The answers of both are the same. What earlier checks kept in out/ is taken along.
# usage: bench/oracle/run.sh
set -eu
here=$(cd "$(dirname "$0")" && pwd)
work=$(mktemp -d)
trap 'rm -rf "$work"' EXIT
rustc -O --edition 2021 -o "$work/peer" "$here/peer.rs"
"$here/../build.sh" "$work" oracle_bench 'dc_build dc_device dc_event dc_oracle dc_document dc_tables dc_word' "$here/main.rt.txt" "$here/../core/laps.rt.txt"
"$here/../check/tables.sh" > "$work/large.toml"
"$work/crates/oracle_bench/out/oracle_bench" < "$work/large.toml" > "$work/proved"
"$work/peer" > "$work/plain"
awk '
    $1 == "sum" { if (sum != "" && sum != $2 "") exit 1; sum = $2 ""; next }
    $5 + 0 != 0 { exit 1 }
    FNR == NR { if (!($1 in plain) || $2 < plain[$1]) plain[$1] = $2; next }
    { if (!($1 in proved) || $2 < proved[$1]) proved[$1] = $2 }
    END { for (name in plain) printf "%s: proved %.1f ms, plain Rust %.1f ms, ratio %.2f\n", name, proved[name] / 1000, plain[name] / 1000, proved[name] / plain[name] }
' "$work/plain" "$work/proved"
