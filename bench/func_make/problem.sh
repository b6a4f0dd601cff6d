#!/usr/bin/env bash
# Writes a problem of one function with 4,096 pieces over 2^22 points: a grid of 64 by 64 boxes of
# 32 by 32 points. With the word `gap` the last box lacks the last column, so that 32 points of the
# domain are in no piece.
set -eu
gap=${1:-none}
awk -v gap="$gap" 'BEGIN {
    print "ivp 1"
    print "domain a:0:2047:2048"
    print "domain b:0:2047:2048"
    print "function 1"
    for (i = 0; i < 64; i++)
        for (j = 0; j < 64; j++) {
            high = 32 * j + 31
            if (gap == "gap" && i == 63 && j == 63) high--
            print "piece", 32 * i, 32 * i + 31, 32 * j, high, 50000, i % 8 - 4, j % 8 - 4
        }
    print "end"
}'
