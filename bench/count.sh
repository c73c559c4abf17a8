#!/bin/bash
# The instructions of one block of a kernel, by callgrind: those of the calls alone, without what is prepared before them.
#   bench/count.sh BENCH KERNEL SIDE BLOCKS      a line of `bench list`; prints "KERNEL SIDE INSTRUCTIONS"
set -euo pipefail
bench=$1 kernel=$2 side=$3 blocks=$4
# Where a call takes one block, a good part of the pool.
if [ "$blocks" = 1 ]; then calls=256; else calls=1; fi
counted=$(valgrind --tool=callgrind --callgrind-out-file=/dev/null --toggle-collect=counted_calls "$bench" count "$kernel" "$side" $calls 2>&1 \
    | sed -n 's/.*Collected : \([0-9]*\).*/\1/p')
echo "$kernel $side $((counted / (calls * blocks)))"
