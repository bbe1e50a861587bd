#!/usr/bin/env bash
# Times `bench 3 N 1`: a stacked sphere, the walk back to the boundary of a simplex, and the replay of its certificate.
# Prints the seconds of the processor and the ratio to the run before, of half the size.
. "$(dirname "$0")/common.bash"
before=
for n in 250 500 1000 2000; do
    TIMEFORMAT='%U %S'
    took=$({ time "$simp" bench 3 "$n" 1 >/dev/null; } 2>&1 | awk '{ printf "%.3f", $1 + $2 }')
    echo "walk of $n flips: $took s, ratio $(ratio "$before" "$took")"
    before=$took
done
