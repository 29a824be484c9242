#!/bin/sh
# Prints how long a call through the hub takes, of one thread and of four, and a read of a mark, beside a plain Rust program
# with a list of entries under a `Mutex` and plain atomic loads: the best of five rounds of four million calls, whose memory
# is new, and of fifty of 100,000, whose memory the round before gave back, and the ratio; once more beside a program whose
# actors keep what they were answered, as the seats of the hub do. The sums of both are the same. With the word `count` all
# instructions are counted too (wants valgrind). What earlier checks kept in out/ is taken along.
# usage: bench/hub/run.sh [count]
set -eu
here=$(cd "$(dirname "$0")" && pwd)
work=$(mktemp -d)
trap 'rm -rf "$work"' EXIT
rustc -O --edition 2021 -o "$work/peer" "$here/peer.rs"
"$here/../build.sh" "$work" hub_bench 'atomic_table dc_board dc_build dc_check dc_device dc_event dc_find dc_hub dc_document dc_tables dc_word' "$here/main.rt.txt" "$here/../core/laps.rt.txt" "$here"/proofs/*/*.antt.txt
count() { # how many instructions, in the place of each time
    cat > "$work/in"
    valgrind --tool=callgrind --callgrind-out-file=/dev/null "$@" < "$work/in" 2> "$work/counted" > "$work/said"
    awk 'NR == FNR { if (/Collected/) all = $4; next } { calls += substr($1, index($1, "-") + 1); sum = $4 } END { print "all-" calls, all, "sum", sum }' "$work/counted" "$work/said"
}
# Memory that is given back stays with the program.
export MALLOC_MMAP_THRESHOLD_=33554432 MALLOC_TRIM_THRESHOLD_=4294967296
compare() { # compare BUSES ROW [UNIT]: both programs, by the count of instructions where the unit is that
    "$here/tables.sh" "$1" > "$work/tables.toml"
    row=$2 unit=${3:-ns}
    ask=; [ "$unit" = ns ] || ask=count
    $ask "$work/crates/hub_bench/out/hub_bench" < "$work/tables.toml" > "$work/proved"
    $ask "$work/peer" $row < /dev/null > "$work/plain"
    awk -v row="$row" -v unit="$unit" '
        $1 in sum && sum[$1] != $4 "" { exit 1 }
        { sum[$1] = $4 "" }
        FNR == NR { if (!($1 in plain) || $2 < plain[$1]) plain[$1] = $2; next }
        { if (!($1 in proved) || $2 < proved[$1]) proved[$1] = $2 }
        END {
            for (name in proved) {
                calls = substr(name, index(name, "-") + 1)
                printf "%s, %d calls: proved %.2f, plain Rust %.2f %s a call, ratio %.2f\n", row, calls, proved[name] / calls, plain[name] / calls, unit, proved[name] / plain[name]
            }
        }
    ' "$work/plain" "$work/proved"
}
for unit in ns ${1:+instructions}; do
    compare 1 laps "$unit"
    compare 1 'laps receipts' "$unit"
    compare 4 wires "$unit"
    compare 4 'wires receipts' "$unit"
    compare 2 reads "$unit"
done
