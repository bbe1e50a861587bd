#!/usr/bin/env bash
# Times `betti`: on spheres, and on one with close to 16,384 faces in its middle dimension.
# Prints the seconds of the question behind the assignment, and the memory.
. "$(dirname "$0")/common.bash"
for maker in "cyclic 4 60" "cyclic 6 20" "stacked 3 1000 1" "stacked 3 2729 1" "cyclic 4 129"; do
    echo "X := $maker; fvec X;" >"$work/in"
    behind "$work/in" "betti X;"
    echo "betti of $maker: $took s, peak $(peak "$work/ask") MB, $(tail -n 2 "$work/out" | tr '\n' ' ')"
done
