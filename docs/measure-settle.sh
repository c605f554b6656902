#!/bin/sh
# Writes a script that puts 4,096 messages in flight, all that the bus has room for; always the same. With the word
# `settle` a line `settle` stands behind that, which takes them all. The END that makes them escalates to one with a
# queue of 64 KiB; its processor is saved, so with the word `escalate`, which gives that END e, each message escalates:
# 4,096 presentations, 4,096 escalations and 4,096 presentations of the escalation END are taken then.
settle=
flags=vqnb
for word; do
    case $word in
        settle) settle=yes ;;
        escalate) flags=vqnbeu ;;
    esac
done

awk -v flags="$flags" -v settle="$settle" 'BEGIN {
    print "board 1\nsources 1\nprocessors 1\nthreads 1\nram 1\nactors 1\nesb 2 0\ngo"
    print "0 endset 7 vqnb 0 7 0x10000 16 0 0x0"
    if (flags == "vqnb")
        print "0 endset 0 vqnb 0 0 0x0 16 0 0x0"
    else
        print "0 endset 0 " flags " 0 0 0x0 16 7 0x5"
    print "0 hcall 0x3ac 0x2 0 0 0 16"
    print "0 set 0 00"
    for (i = 0; i < 4096; i++)
        print "0 fire 0\n0 finish 0"
    if (settle != "")
        print "0 settle"
    print "end"
}'
