#!/bin/sh
# Writes a script of 50,000 calls of the KVM device, a set of KVM_DEV_XIVE_GRP_SOURCE_CONFIG and a get of
# KVM_DEV_XIVE_GRP_EQ_CONFIG in turn, on 64 sources and 56 queues of 4 KiB; always the same. Every call is accepted, an
# entry each. Half of the sets mask their source.
# The header, the sets of the queues and `end` come on top.

awk 'BEGIN {
    print "board 1\nsources 64\nprocessors 8\nthreads 1\nram 1\nactors 4\nesb 2 0\ngo"
    for (q = 0; q < 56; q++)
        printf "0 kvmeq 0x%x 0x1 12 0x%x 1 0\n", 8 * int(q / 7) + q % 7, 4096 * q
    x = 1
    for (i = 0; i < 25000; i++) {
        x = (x * 16807) % 2147483647
        s = int(x / 16) % 64
        actor = int(x / 1024) % 4
        q = int(x / 4096) % 56
        printf "%d kvmset 3 0x%x 0x%x%08x\n", actor, s, 2 * (4096 + s) + int(x / 262144) % 2, 8 * int(q / 7) + q % 7
        printf "%d kvmget 4 0x%x\n", actor, 8 * int(q / 7) + q % 7
    }
    print "end"
}'
