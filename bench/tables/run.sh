#!/bin/sh
# Prints how fast a tables' text is read: by the TOML reader alone, as valid tables with all rules, and by Python's
# tomllib; and how many tables a second are built from parts. Without a file it reads the largest tables by streams.
# usage: bench/tables/run.sh [TABLES]
set -eu
here=$(cd "$(dirname "$0")" && pwd)
work=$(mktemp -d)
trap 'rm -rf "$work"' EXIT
text=${1:-$work/tables.toml}
[ $# -gt 0 ] || "$here/../check/tables.sh" > "$text"
"$here/../build.sh" "$work" tables_bench 'dc_build dc_device dc_document dc_tables dc_toml toml' "$here/main.rt.txt"
"$work/crates/tables_bench/out/tables_bench" < "$text" | grep ' a round'
python3 - "$text" <<'P'
import sys, time, tomllib
text = open(sys.argv[1]).read()
start = time.perf_counter()
for _ in range(20):
    tomllib.loads(text)
spent = (time.perf_counter() - start) / 20
print(f"tomllib {spent * 1e6:.0f} us a round, {len(text) / spent / 1000:.0f} kB/s")
P
