#!/bin/sh
# Prints calls per second of the bounds at their widest (1,024 streams of a bus, 1,024 offsets of a frame, a list of
# 256 visits): of the proved crate, and then of a plain Rust program that asks the same. The sums of both are the same.
# usage: bench/bounds/run.sh
set -eu
here=$(cd "$(dirname "$0")" && pwd)
work=$(mktemp -d)
trap 'rm -rf "$work"' EXIT
rustc -O --edition 2021 -o "$work/peer" "$here/peer.rs"
"$here/../build.sh" "$work" bound_bench 'dc_bound' "$here/main.rt.txt" "$here/Invariants.antt.txt"
echo "proved"
"$work/crates/bound_bench/out/bound_bench"
echo "plain Rust"
"$work/peer"
