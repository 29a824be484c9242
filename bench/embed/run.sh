#!/bin/sh
# Prints of the built library: how long examples/c/replay.c takes for two million lines of the small tables without printing, beside
# `dc429 replay`, the best of five rounds each, and the instructions a line of both, counted by callgrind; how long a call takes
# in the mean and by itself, on the small tables and on those of tables.sh, with the instructions a call; how much of the heap an
# engine keeps, and how much of its stack a thread uses.
# usage: bench/embed/run.sh [LIBRARY [PROGRAM]]      build/ and build/dc429 where none is said
set -eu
here=$(cd "$(dirname "$0")" && pwd)
root=$(cd "$here/../.." && pwd)
library=$(realpath "${1:-$root/build}")
program=$(realpath "${2:-$root/build/dc429}")
work=$(mktemp -d)
trap 'rm -rf "$work"' EXIT
cd "$work"
flags="-std=gnu11 -O2 -Wall -Wextra -Werror -I$root/include"
cc $flags -o replay "$root/examples/c/replay.c" "$library/libdc429.a"
cc $flags -o embed "$root/scripts/embed.c" "$library/libdc429.a" -Wl,--wrap=malloc,--wrap=realloc,--wrap=free -pthread
cp "$root/examples/small.toml" small.toml
"$here/tables.sh" > large.toml
for size in small large; do
    "$program" find $size.toml > $size.json
done

# Arrivals every tenth tick, two steps of the router and one of the output in each.
awk 'BEGIN {
    for (t = 0; t < 476191; t++) {
        if (t % 10 == 0) { print "A A " (t % 20 ? "FFFFFCC1" : "600000C1"); print "A A E0000021" }
        print "R R1\nR R1\nS O\nT"
    }
}' > trace
head -300000 trace > short
: > none

best() {
    for round in 1 2 3 4 5; do
        before=$(date +%s%N)
        "$@" < trace > /dev/null
        echo $((($(date +%s%N) - before) / 1000))
    done | sort -n | head -1
}

counted() {
    input=$1
    shift
    valgrind --tool=callgrind --callgrind-out-file=profile "$@" < "$input" 2>&1 > written | sed -n 's/.*Collected : //p'
}

ours=$(best ./replay small.toml small.json --quiet)
its=$(best "$program" replay small.toml)
awk -v ours="$ours" -v its="$its" -v lines="$(wc -l < trace)" 'BEGIN {
    printf "%d lines: replay.c --quiet %.3f s, dc429 replay %.3f s, ratio %.2f\n", lines, ours / 1e6, its / 1e6, ours / its
}'
ours=$(($(counted short ./replay small.toml small.json --quiet) - $(counted none ./replay small.toml small.json --quiet)))
its=$(($(counted short "$program" replay small.toml) - $(counted none "$program" replay small.toml)))
awk -v ours="$ours" -v its="$its" 'BEGIN {
    printf "instructions a line: replay.c --quiet %.0f, dc429 replay %.0f, ratio %.2f\n", ours / 3e5, its / 3e5, ours / its
}'
for size in small large; do
    ticks=$([ $size = small ] && echo 2000000 || echo 30000)
    ./embed calls $size.toml $size.json $ticks | sed "s/ sum.*//; s/^/$size tables, /"
    less=$(counted none ./embed calls $size.toml $size.json 1000)
    few=$(sed -n 's/^calls \([0-9]*\) .*/\1/p' written)
    more=$(counted none ./embed calls $size.toml $size.json 3000)
    many=$(sed -n 's/^calls \([0-9]*\) .*/\1/p' written)
    echo "$size tables, instructions a call: $(((more - less) / (many - few)))"
    ./embed longest $size.toml $size.json | sed "s/^/$size tables, /"
    ./embed stack $size.toml $size.json | sed "s/^/$size tables, stack of /"
done
