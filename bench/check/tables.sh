#!/bin/sh
# Prints the largest tables by streams: 64 buses of 16 streams each, a router for each, one output; with the word
# `different` no two streams of a bus have the same minimum; or, with the word `certificate`, a certificate for either,
# whose inputs have the window that is given (100000 if none).
# usage: bench/check/tables.sh [different | certificate [WINDOW]]
set -eu
if [ "${1:-}" = certificate ]; then
    awk -v window="${2:-100000}" 'BEGIN {
        printf "{\"inputs\":["
        for (b = 0; b < 64; b++) printf "%s{\"backlog\":14,\"bus\":\"B%d\",\"delay\":6,\"window\":%d}", b ? "," : "", b, window
        print "],\"labels\":[{\"age\":32,\"label\":\"x\"}],\"outputs\":[{\"delay\":2,\"output\":\"O\",\"window\":3}],\"version\":1}"
    }'
    exit
fi
awk -v different="${1:-}" 'BEGIN {
    count = split("201 202 203 204 205 206 207 210 211 212 213 214 215 216 217 220", labels, " ")
    print "version = 1\ntick_us = 1000"
    for (i = 1; i <= count; i++) {
        minimum = different == "" ? 10 : 9 + i
        printf "[[parameter]]\nlabel = \"%s\"\nequipment = \"001\"\nformat = \"bnr\"\nmin_us = %d000\nmax_us = %d000\n", labels[i], minimum, minimum < 20 ? 20 : minimum
    }
    for (b = 0; b < 64; b++) {
        printf "[[bus]]\nname = \"B%d\"\nspeed = \"high\"\nqueue = 16\n", b
        for (i = 1; i <= count; i++)
            printf "[[bus.stream]]\nname = \"B%d-%s\"\nlabel = \"%s\"\nequipment = \"001\"\nsdi = \"any\"\n", b, labels[i], labels[i]
    }
    for (b = 0; b < 64; b++)
        printf "[[router]]\nname = \"R%d\"\nsteps = 2\nwithin = 1\nmost = 2\nvisits = [\"B%d\"]\n", b, b
    print "[[output]]\nname = \"O\"\nspeed = \"high\"\nsteps = 1\nwithin = 2\nframe = 15"
    print "[[output.label]]\nname = \"x\"\nlabel = \"203\"\nequipment = \"001\"\nsdi = 0"
    print "sources = [\"B0-203\"]\nstale = 26\nage = 40\noffsets = [0]"
}'
