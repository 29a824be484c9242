#!/bin/sh
# Prints how many instructions `decode` and `replay` take a line, and plain Rust programs that write the same bytes: 300,000
# lines, counted by callgrind, less what a run of no lines takes. On the largest tables there is no plain program.
# usage: bench/text/run.sh [PROGRAM]        the program is build/dc429 where none is said
set -eu
here=$(cd "$(dirname "$0")" && pwd)
root=$(cd "$here/../.." && pwd)
program=$(realpath "${1:-$root/build/dc429}")
work=$(mktemp -d)
trap 'rm -rf "$work"' EXIT
cd "$work"
for peer in decode replay; do
    rustc -O --edition 2021 -o "${peer}_peer" "$here/${peer}_peer.rs"
done
"$root/bench/tables/largest.sh" > largest.toml
cp "$root/examples/small.toml" .

awk 'BEGIN { x = 1; for (i = 0; i < 300000; i++) { x = (x * 1103515245 + 12345) % 4294967296; printf "%08X\n", x } }' > words

# Arrivals every tenth tick, two steps of the router and one of the output in each.
awk 'BEGIN {
    for (t = 0; t < 75000; t++) {
        if (t % 10 == 0) {
            print "A A " (t % 70 == 0 ? "200000C1" : t % 20 ? "FFFFFCC1" : "600000C1")
            print "A A E0000021"
        }
        print "R R1\nR R1\nS O\nT"
    }
}' | head -300000 > small.trace

# In each tick a word comes on each of 64 buses, each of 64 routers makes the two steps that it owes, and each of 32 outputs one.
awk 'BEGIN {
    for (n = 1; n <= 16; n++) {
        label = ones = 0
        for (i = 0; i < 8; i++) { bit = int(n / 2 ^ i) % 2; label = label * 2 + bit; ones += bit }
        word[n % 16] = sprintf("%s00000%02X", ones % 2 ? "6" : "E", label)
    }
    for (t = 0; t < 1334; t++) {
        for (k = 0; k < 64; k++) print "A B" k " " word[(t + k) % 16] "\nR R" k "\nR R" k
        for (k = 0; k < 32; k++) print "S O" k
        print "T"
    }
}' | head -300000 > largest.trace
: > none

# The instructions of a run over an input.
counted() {
    input=$1
    shift
    valgrind --tool=callgrind --callgrind-out-file=profile "$@" < "$input" 2>&1 > written |
        sed -n 's/.*Collected : //p'
}

# row NAME INPUT PEER WORDS..
row() {
    name=$1 input=$2 peer=$3
    shift 3
    empty=$(counted none "$program" "$@")
    ours=$(counted "$input" "$program" "$@")
    cp written ours
    plain=-
    if [ -n "$peer" ]; then
        # (the plain program is told of --all, and holds the small tables)
        flags=$(for word in "$@"; do [ "$word" != --all ] || echo "$word"; done)
        plain=$(counted "$input" "./$peer" $flags)
        cmp -s written ours || { echo "$name: the plain program writes another text"; exit 1; }
    fi
    awk -v name="$name" -v empty="$empty" -v ours="$ours" -v plain="$plain" 'BEGIN {
        printf "%-32s %8.0f", name, (ours - empty) / 300000
        if (plain == "-") print "        -      -"
        else printf " %8.0f %6.2f\n", plain / 300000, (ours - empty) / plain
    }'
}

printf '%-32s %8s %8s %6s\n' "instructions a line" product plain ratio
row "decode bnr" words decode_peer decode bnr
row "replay, small tables" small.trace replay_peer replay small.toml
row "replay --all, small tables" small.trace replay_peer replay small.toml --all
row "replay, largest tables" largest.trace "" replay largest.toml
row "replay --all, largest tables" largest.trace "" replay largest.toml --all
