#!/bin/sh
# Writes a script of 100,000 lines, `fire` and `finish` in turn, on 64 sources that are routed to 8 ENDs with queues
# of 64 KiB; always the same. Each `fire` makes two entries, a trigger and a route, and each `finish` one.
# The header, the configuration and `end` come on top.

awk 'BEGIN {
    print "board 1\nsources 64\nprocessors 2\nthreads 1\nram 1\nactors 4\nesb 2 0\ngo"
    for (v = 0; v < 2; v++)
        for (p = 0; p < 4; p++)
            printf "0 endset %d vq %d %d %d 16 0 0x0\n", 8 * v + p, v, p, (4 * v + p) * 65536
    for (s = 0; s < 64; s++) {
        printf "0 hcall 0x3ac 0x2 %d %d %d %d\n", s, int(s / 4) % 2, s % 4, 4096 + s
        printf "0 set %d 00\n", s
    }
    x = 1
    for (i = 0; i < 50000; i++) {
        x = (x * 16807) % 2147483647
        s = int(x / 16) % 64
        actor = int(x / 1024) % 4
        print actor " fire " s
        print actor " finish " s
    }
    print "end"
}'
