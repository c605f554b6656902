#!/bin/sh
# Writes a script of 200,000 page accesses on 64 sources, always the same: a load and a store of each quarter of the
# management page, and of the trigger page, in turn, spread over offsets, sources and actors by a small generator of
# numbers.
# The board has two pages and store EOI, so of the stores those to the third quarter alone have a bad offset.
# The 200,000 lines are the work lines; the header's eight and `end` come on top.

awk 'BEGIN {
    print "board 1\nsources 64\nprocessors 1\nthreads 1\nram 0\nactors 4\nesb 2 1\ngo"
    x = 1
    for (i = 0; i < 200000; i++) {
        x = (x * 16807) % 2147483647
        s = int(x / 16) % 64
        actor = int(x / 1024) % 4
        part = int(i / 2) % 5
        quarter = part < 4 ? part : int(x / 67108864) % 4
        offset = 4096 * (int(x / 4194304) % 16) + 1024 * quarter + int(x / 4096) % 1024
        printf "%d %s %d %d 0x%x\n", actor, (i % 2 ? "store" : "load"), s, (part < 4), offset
    }
    print "end"
}'
