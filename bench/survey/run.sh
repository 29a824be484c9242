#!/bin/sh
# Prints how many instructions `survey` takes a line of a capture and `trace` a line that it prints, and the same of plain Rust programs
# that write the same bytes, of `survey` of a plain C program too: 300,000 words, of `trace` 100,000, counted by callgrind, less what a run
# of no words takes.
# With `time` the seconds of user time of 1,000,000 words and 100,000, the best of five, and how many words a second that is.
# usage: bench/survey/run.sh [PROGRAM [time]]        the program is build/dc429 where none is said
set -eu
here=$(cd "$(dirname "$0")" && pwd)
root=$(cd "$here/../.." && pwd)
program=$(realpath "${1:-$root/build/dc429}")
how=${2:-count}
work=$(mktemp -d)
trap 'rm -rf "$work"' EXIT
cd "$work"
for peer in survey trace; do
    rustc -O --edition 2021 -o "$peer.rust" "$here/${peer}_peer.rs"
done
$(command -v clang || echo cc) -O2 -o survey.c "$here/survey_peer.c"
"$root/bench/tables/largest.sh" > largest.toml
cp "$root/examples/small.toml" .
: > none
words=300000
[ "$how" = count ] || words=1000000
for tables in small largest; do
    "$here/made.py" list $tables.toml > $tables.list
    "$here/made.py" capture $tables.toml $words > $tables.survey
    head -n 100000 $tables.survey > $tables.trace
done

# What a run over an input costs, which writes to `written`: instructions, or milliseconds of user time.
cost() {
    input=$1
    shift
    if [ "$how" = count ]; then
        { valgrind --tool=callgrind --callgrind-out-file=profile "$@" < "$input" 2>&1 > written || :; } | sed -n 's/.*Collected : //p'
    else
        for _ in 1 2 3 4 5; do
            { bash -c 'TIMEFORMAT=%3U; time "$@"' cost "$@" < "$input" 2>&1 > written || :; }
        done | awk '/^[0-9.]+$/ && (best == "" || $1 < best) { best = $1 } END { print best * 1000 }'
    fi
}

# row COMMAND TABLES
row() {
    ours=$(cost $2.$1 "$program" "$1" $2.toml)
    cp written ours
    none=0 lines=$(wc -l < $2.$1)
    [ "$how" != count ] || none=$(cost none "$program" "$1" $2.toml)
    rust=$(cost $2.$1 ./$1.rust $2.list)
    cmp -s written ours || { echo "$1, $2 tables: the plain Rust program writes another text"; exit 1; }
    c=-
    if [ "$1" = survey ]; then
        c=$(cost $2.$1 ./survey.c $2.list)
        cmp -s written ours || { echo "$1, $2 tables: the plain C program writes another text"; exit 1; }
    else
        lines=$(wc -l < ours)
    fi
    awk -v name="$1, $2 tables" -v ours="$ours" -v none="$none" -v rust="$rust" -v c="$c" -v lines="$lines" -v words="$(wc -l < $2.$1)" -v how="$how" 'BEGIN {
        if (how == "count") printf "%-24s %9.0f %9.0f %9s %6.2f\n", name, (ours - none) / lines, rust / lines, c == "-" ? c : sprintf("%.0f", c / lines), (ours - none) / rust
        else printf "%-24s %9.3f %9.3f %9s %6.2f %12.0f\n", name, ours / 1000, rust / 1000, c == "-" ? c : sprintf("%.3f", c / 1000), ours / rust, words * 1000 / ours
    }'
}

if [ "$how" = count ]; then
    printf '%-24s %9s %9s %9s %6s\n' "instructions a line" product Rust C ratio
else
    printf '%-24s %9s %9s %9s %6s %12s\n' "seconds" product Rust C ratio "words/s"
fi
for command in survey trace; do
    for tables in small largest; do
        row $command $tables
    done
done
