#!/bin/sh
# Prints the small tables with so many buses, each with a router; the output takes label 203 from the first.
# usage: bench/hub/tables.sh BUSES
set -eu
awk -v buses="$1" 'BEGIN {
    print "version = 1\ntick_us = 1000"
    for (l = 203; l <= 204; l++)
        printf "[[parameter]]\nlabel = \"%d\"\nequipment = \"001\"\nformat = \"bnr\"\nmin_us = 10000\nmax_us = 20000\n", l
    for (b = 0; b < buses; b++) {
        printf "[[bus]]\nname = \"B%d\"\nspeed = \"high\"\nqueue = 2\n", b
        for (l = 203; l <= 204; l++)
            printf "[[bus.stream]]\nname = \"B%d-%d\"\nlabel = \"%d\"\nequipment = \"001\"\nsdi = \"any\"\n", b, l, l
    }
    for (b = 0; b < buses; b++)
        printf "[[router]]\nname = \"R%d\"\nsteps = 1\nwithin = 1\nmost = 2\nvisits = [\"B%d\"]\n", b, b
    print "[[output]]\nname = \"O\"\nspeed = \"high\"\nsteps = 1\nwithin = 2\nframe = 15"
    print "[[output.label]]\nname = \"x\"\nlabel = \"203\"\nequipment = \"001\"\nsdi = 0"
    print "sources = [\"B0-203\"]\nstale = 22\nage = 30\noffsets = [0]"
}'
