#!/usr/bin/env bash
# Times `fvec` on stacked spheres with about 1,000, 10,000 and 100,000 tetrahedra.
# Prints the seconds of the assignment and of the question, the ratio of the questions, and the memory.
. "$(dirname "$0")/common.bash"
before=
for facets in 1000 10000 100000; do
    make_sphere "$facets" >"$work/in"
    behind "$work/in" "fvec S;"
    echo "fvec $facets: assignment $alone s, fvec $took s, ratio $(ratio "$before" "$took"), peak $(peak "$work/ask") MB"
    before=$took
done
