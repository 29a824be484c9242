#!/bin/sh
# Counts the instructions of `replay` and of `audit --long` on one trace of so many events, by callgrind, less what a run of no
# events takes, and prints how much memory the audit held at most. The tables are those of 64 buses of 16 streams.
# usage: bench/audit/long.sh [PROGRAM [EVENTS]]     build/dc429 and 3,000,000 where none is said
set -eu
here=$(cd "$(dirname "$0")" && pwd)
program=$(realpath "${1:-$here/../../build/dc429}")
events=${2:-3000000}
work=$(mktemp -d)
trap 'rm -rf "$work"' EXIT
cd "$work"
"$here/made.py" tables > tables.toml
"$program" find tables.toml > certificate.json
"$here/made.py" "$events" > trace
: > none
counted() { # the instructions of a command over an input
    input=$1
    shift
    valgrind --tool=callgrind --callgrind-out-file=profile "$program" "$@" < "$input" 2>&1 > written | sed -n 's/.*Collected : //p'
}
replay=$(($(counted trace replay tables.toml --long) - $(counted none replay tables.toml --long)))
audit=$(($(counted trace audit tables.toml certificate.json --long) - $(counted none audit tables.toml certificate.json --long)))
cat written
/usr/bin/time -f "%M KiB at most" "$program" audit tables.toml certificate.json --long < trace > written
awk -v n="$events" -v r="$replay" -v a="$audit" 'BEGIN { printf "%d events: replay %.0f, audit --long %.0f instructions an event: ratio %.2f\n", n, r / n, a / n, a / r }'
