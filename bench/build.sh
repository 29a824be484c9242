#!/bin/sh
# Builds a benchmark's program in a workspace of its own, on the crates that it names and those below them, with the whole of
# what earlier checks kept in out/: no command of rt may run in these crates while they are copied. The program is then
# WORK/crates/NAME/out/NAME.
# The gate reads every .rt and .antt file of the repository, and a benchmark prints another text each time: so its
# sources end in .txt in the repository, and only in WORK as the prover wants them.
# usage: bench/build.sh WORK NAME 'LIBRARIES' SOURCE..
#   SOURCE: a file such as main.rt.txt, which goes to src/, or Invariants.antt.txt, the proof of a function that it names
#   in its first line
set -eu
work=$1 name=$2 libraries=$3
shift 3
root=$(cd "$(dirname "$0")/.." && pwd)
program="$work/crates/$name"
mkdir -p "$program/src"
cp "$root/HANDLES" "$work/"
awk -v libraries="$libraries" '
    function take(list, parts, count, at) {
        count = split(list, parts, " ")
        for (at = 1; at <= count; at++)
            if (parts[at] in stands_on && !(parts[at] in taken)) { taken[parts[at]]; take(stands_on[parts[at]]) }
    }
    /^[a-z]/ { at = index($0, ":"); split(substr($0, 1, at - 1), head, " "); stands_on[head[1]] = substr($0, at + 1) }
    END { take(libraries); for (crate in taken) print crate ":" stands_on[crate] }' "$root/crates.txt" > "$work/crates.txt"
for crate in $(sed 's/:.*//' "$work/crates.txt"); do
    cp -a "$root/crates/$crate" "$work/crates/"
done
echo "$name: $libraries" >> "$work/crates.txt"
for source in "$@"; do
    file=$(basename "$source" .txt)
    case $file in
        *.antt) to="$program/proofs/$(sed -n '1s/^-- of //p' "$source")" ;;
        *) to="$program/src" ;;
    esac
    mkdir -p "$to"
    cp "$source" "$to/$file"
done
(cd "$program" && rt run --jobs 2 < /dev/null) > "$work/log" 2>&1 || { tail "$work/log"; exit 1; }
