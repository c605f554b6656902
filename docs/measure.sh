#!/bin/sh
# Writes a script of 200,000 lines on 64 sources, always the same: triggers, EOIs, sets and gets in turn,
# spread over sources and actors by a small generator of numbers.
# The 200,000 lines are the work lines; the header's eight and `end` come on top.

awk 'BEGIN {
    print "board 1\nsources 64\nprocessors 1\nthreads 1\nram 0\nactors 4\nesb 2 0\ngo"
    split("00 01 10 11", pairs, " ")
    x = 1
    for (i = 0; i < 200000; i++) {
        x = (x * 16807) % 2147483647
        s = int(x / 16) % 64
        actor = int(x / 1024) % 4
        kind = int(x / 4096) % 8
        if (kind < 3) print actor " trigger " s
        else if (kind < 6) print actor " eoi " s
        else if (kind < 7) print actor " get " s
        else print actor " set " s " " pairs[1 + int(x / 32768) % 4]
    }
    print "end"
}'
