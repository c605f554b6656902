#!/bin/sh
# Writes a script of 50,000 events, always the same: seven sources are routed into seven queues of 4 KiB, in turn, so
# that each queue wraps six times. With the word `read` each event is read behind its route. What a read costs is the
# difference between the two scripts, 50,000 lines.

awk -v read="$1" 'BEGIN {
    print "board 1\nsources 7\nprocessors 1\nthreads 1\nram 1\nactors 4\nesb 2 0\ngo"
    for (e = 0; e < 7; e++) print "0 endset " e " vq 0 " e " " e * 4096 " 12 0 0"
    for (s = 0; s < 7; s++) print "0 hcall 0x3ac 2 " s " 0 " s " " s + 16
    for (s = 0; s < 7; s++) print "0 set " s " 00"
    for (i = 0; i < 50000; i++) {
        s = i % 7
        print i % 4 " fire " s "\n" i % 4 " finish " s
        if (read != "") print i % 4 " read " s
    }
    print "end"
}'
