#!/bin/sh
# Prints tables at the limits of buses, streams, routers, outputs and labels for which a certificate is accepted: 64 buses of 16
# streams, a router for each, and 32 outputs of 32 labels of 8 sources.
# usage: bench/embed/tables.sh
awk 'BEGIN {
    print "version = 1\ntick_us = 1000"
    for (i = 0; i < 48; i++)
        printf "[[parameter]]\nlabel = \"%03o\"\nequipment = \"%03X\"\nformat = \"bnr\"\nmin_us = 10000\nmax_us = %d\n", (i < 16 ? i + 129 : i + 113), (i < 16 ? 0 : 1), (i < 16 ? 20000 : 60000)
    for (b = 0; b < 64; b++) {
        printf "[[bus]]\nname = \"B%d\"\nspeed = \"high\"\nqueue = 16\n", b
        for (s = 0; s < 16; s++)
            printf "[[bus.stream]]\nname = \"B%d-%d\"\nlabel = \"%03o\"\nequipment = \"000\"\nsdi = \"any\"\n", b, s, s + 129
    }
    for (b = 0; b < 64; b++)
        printf "[[router]]\nname = \"R%d\"\nsteps = 2\nwithin = 1\nmost = 2\nvisits = [\"B%d\"]\n", b, b
    for (o = 0; o < 32; o++) {
        printf "[[output]]\nname = \"O%d\"\nspeed = \"high\"\nsteps = 1\nwithin = 1\nframe = 40\n", o
        for (x = 0; x < 32; x++) {
            printf "[[output.label]]\nname = \"O%d-%d\"\nlabel = \"%03o\"\nequipment = \"001\"\nsdi = 0\nsources = [", o, x, x + 129
            for (k = 0; k < 8; k++) printf "%s\"B%d-%d\"", k ? ", " : "", (o * 2 + k) % 64, x % 16
            printf "]\nstale = 26\nage = 60\noffsets = [%d]\n", x
        }
    }
}'
