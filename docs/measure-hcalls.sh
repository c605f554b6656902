#!/bin/sh
# Writes a script of 50,000 hypercalls, SET_SOURCE_CONFIG (0x3ac) and GET_QUEUE_CONFIG (0x3bc) in turn, on 64 sources
# and 56 queues of 4 KiB; always the same. Every call is accepted, an entry each. Half of the configurations mask their
# source, and half set its EISN; every second question is for generation and index too.
# The header, the configuration of the queues and `end` come on top.

awk 'BEGIN {
    print "board 1\nsources 64\nprocessors 8\nthreads 1\nram 1\nactors 4\nesb 2 0\ngo"
    for (q = 0; q < 56; q++)
        printf "0 hcall 0x3b8 0x%x %d %d 0x%x 12\n", q % 2, int(q / 7), q % 7, 4096 * q
    x = 1
    for (i = 0; i < 25000; i++) {
        x = (x * 16807) % 2147483647
        s = int(x / 16) % 64
        actor = int(x / 1024) % 4
        q = int(x / 4096) % 56
        printf "%d hcall 0x3ac 0x%x 0x%x 0x%x 0x%x 0x%x\n", actor, int(x / 262144) % 4, s, int(q / 7), q % 7, 4096 + s
        printf "%d hcall 0x3bc 0x%x 0x%x 0x%x 0x0 0x0\n", actor, i % 2, int(q / 7), q % 7
    }
    print "end"
}'
