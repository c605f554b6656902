#!/bin/sh
# Writes a script of 100,000 lines, `fire`, `settle`, `ack`, `finish` and `cppr` in turn, on 64 sources that are routed
# to 8 ENDs without queues, of 4 processors that are on 4 threads; always the same. Each `fire` makes two entries, a
# trigger and a route, each `settle` two, a take and one that finds no message, and each other line one.
# Each `ack` is on the thread of the processor that the event was presented to, and accepts it. That leaves CPPR at
# the event's priority, which masks it and all that are less favoured. So the fifth line opens CPPR again, as a guest
# does when it is done with an interrupt, and no `ack` is spurious, whichever of the two priorities comes next.
# The header, the configuration, the moves onto the threads and `end` come on top.

awk 'BEGIN {
    print "board 1\nsources 64\nprocessors 4\nthreads 4\nram 0\nactors 4\nesb 2 0\ngo"
    for (v = 0; v < 4; v++)
        for (p = 5; p < 7; p++)
            printf "0 endset %d vnb %d %d 0x0 0 0 0x0\n", 8 * v + p, v, p
    for (s = 0; s < 64; s++) {
        printf "0 hcall 0x3ac 0x2 %d %d %d %d\n", s, int(s / 2) % 4, 5 + s % 2, 4096 + s
        printf "0 set %d 00\n", s
    }
    for (v = 0; v < 4; v++) {
        printf "0 restore %d %d\n", v, v
        printf "0 push %d %d\n", v, v
        printf "0 cppr %d 0xff\n", v
    }
    x = 1
    for (i = 0; i < 20000; i++) {
        x = (x * 16807) % 2147483647
        s = int(x / 16) % 64
        t = int(s / 2) % 4
        actor = int(x / 1024) % 4
        print actor " fire " s
        print actor " settle"
        print actor " ack " t
        print actor " finish " s
        print actor " cppr " t " 0xff"
    }
    print "end"
}'
