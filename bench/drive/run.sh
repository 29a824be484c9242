#!/bin/sh
# Prints how many events a second a drive makes of 64 buses of 16 streams, with a thread for each actor but the clock, for
# 1,000 ticks, beside a plain Rust program with the same threads, pace and words and one `Mutex` round its concentrator:
# the best of seven drives and their median, and the ratio of the times. The numbers of entries are the same. What earlier
# checks kept in out/ is taken along.
# usage: bench/drive/run.sh
set -eu
here=$(cd "$(dirname "$0")" && pwd)
work=$(mktemp -d)
trap 'rm -rf "$work"' EXIT
rustc -O --edition 2021 -o "$work/peer" "$here/peer.rs"
"$here/../build.sh" "$work" drive_bench 'atomic_table dc_board dc_build dc_check dc_checkpar dc_device dc_drive dc_event dc_find dc_hub dc_document dc_script dc_tables dc_word' "$here/main.rt.txt" "$here/../core/laps.rt.txt" "$here"/proofs/*/*.antt.txt
"$here/../check/tables.sh" > "$work/large.toml"
"$work/crates/drive_bench/out/drive_bench" < "$work/large.toml" | sort -n > "$work/proved"
"$work/peer" | sort -n > "$work/plain"
awk '
    FNR == 1 { file++ }
    { if (entries && $2 != entries) { print "the numbers of entries differ"; exit 1 } entries = $2; times[file, FNR] = $1; lines[file] = FNR }
    END {
        split("best median", names, " ")
        for (k = 1; k <= 2; k++) {
            one = times[1, k == 1 ? 1 : int((lines[1] + 1) / 2)]; other = times[2, k == 1 ? 1 : int((lines[2] + 1) / 2)]
            printf "%s of %d: %d events, proved %.0f, plain Rust %.0f thousand events/s, ratio %.2f\n", names[k], lines[1], entries, entries / one * 1e6, entries / other * 1e6, one / other
        }
    }
' "$work/proved" "$work/plain"
