#!/bin/sh
# Prints valid tables at their limits: 2,048 parameters, 64 buses with 1,024 streams, 64 routers, and 32 outputs with
# 1,024 labels of 8 sources, whose 1,024 entries each fill a frame's list.
# usage: bench/tables/largest.sh
awk 'BEGIN {
    print "version = 1\ntick_us = 1000"
    for (i = 0; i < 2048; i++)
        printf "[[parameter]]\nlabel = \"%03o\"\nequipment = \"%03X\"\nformat = \"bnr\"\nmin_us = 10000\nmax_us = 20000\n", i % 255 + 1, int(i / 255)
    for (b = 0; b < 64; b++) {
        printf "[[bus]]\nname = \"B%d\"\nspeed = \"high\"\nqueue = 16\n", b
        for (s = 0; s < 16; s++)
            printf "[[bus.stream]]\nname = \"B%d-%d\"\nlabel = \"%03o\"\nequipment = \"000\"\nsdi = \"any\"\n", b, s, s + 1
    }
    for (b = 0; b < 64; b++)
        printf "[[router]]\nname = \"R%d\"\nsteps = 2\nwithin = 1\nmost = 2\nvisits = [\"B%d\"]\n", b, b
    for (o = 0; o < 32; o++) {
        printf "[[output]]\nname = \"O%d\"\nspeed = \"high\"\nsteps = 1\nwithin = 1000\nframe = 100000\n", o
        for (x = 0; x < 32; x++) {
            printf "[[output.label]]\nname = \"O%d-%d\"\nlabel = \"%03o\"\nequipment = \"000\"\nsdi = 0\nsources = [", o, x, x + 1
            for (k = 0; k < 8; k++) printf "%s\"B%d-%d\"", k ? ", " : "", (o * 2 + k) % 64, x % 16
            printf "]\nstale = 26\nage = 40\noffsets = ["
            for (k = 0; k < 32; k++) printf "%s%d", k ? ", " : "", x * 32 + k
            print "]"
        }
    }
}'
