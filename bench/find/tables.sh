#!/bin/sh
# Prints the largest tables by streams: 64 buses of 16 streams each, a router for each, one output.
# usage: bench/find/tables.sh [far | never | mixed]
#   far: a bus brings 1.600 words in a tick and its router takes 1.602, so that each window closes only at 96,001 ticks
#   never: the same, but the last router takes 1.600, so that no window of its bus closes
#   mixed: no two streams of a bus have the same minimum; a bus brings 0.987 words in a tick and its router takes 0.989
set -eu
awk -v kind="${1:-near}" 'BEGIN {
    count = split("201 202 203 204 205 206 207 210 211 212 213 214 215 216 217 220", labels, " ")
    near = kind == "near"
    mixed = kind == "mixed"
    print "version = 2\ntick_us = 1000"
    for (i = 1; i <= count; i++)
        printf "[[parameter]]\nlabel = \"%s\"\nequipment = \"001\"\nformat = \"bnr\"\nmin_us = %d000\nmax_us = %d000\n", labels[i], (mixed ? 9 + i : 10), (mixed && i > 11 ? 9 + i : 20)
    for (b = 0; b < 64; b++) {
        printf "[[bus]]\nname = \"B%d\"\nspeed = \"high\"\nqueue = 4096\npolice = false\n", b
        for (i = 1; i <= count; i++)
            printf "[[bus.stream]]\nname = \"B%d-%s\"\nlabel = \"%s\"\nequipment = \"001\"\nsdi = \"any\"\njitter_us = %d\n", b, labels[i], labels[i], near ? 0 : 110000
    }
    for (b = 0; b < 64; b++)
        printf "[[router]]\nname = \"R%d\"\nsteps = %d\nwithin = %d\nmost = %d\nvisits = [\"B%d\"]\n", b, near ? 2 : mixed ? 989 : kind == "never" && b == 63 ? 800 : 801, near ? 1 : mixed ? 1000 : 500, near ? 2 : mixed ? 989 : 801, b
    print "[[output]]\nname = \"O\"\nspeed = \"high\"\nsteps = 1\nwithin = 2\nframe = 15"
    print "[[output.label]]\nname = \"x\"\nlabel = \"203\"\nequipment = \"001\"\nsdi = 0"
    print "sources = [\"B0-203\"]\nstale = 10000\nage = 40000\noffsets = [0]"
}'
