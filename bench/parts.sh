#!/usr/bin/env bash
# Times connection and parts of stacked spheres with about 10,000 and 100,000 tetrahedra.
# Prints the seconds of each command behind the assignment, and the ratio to the smaller sphere.
. "$(dirname "$0")/common.bash"
make_sphere 10000 >"$work/small"
make_sphere 100000 >"$work/large"
while IFS= read -r command; do
    behind "$work/small" "$command"
    before=$took
    behind "$work/large" "$command"
    echo "$command 10000: $before s, 100000: $took s, ratio $(ratio "$before" "$took"), peak $(peak "$work/ask") MB"
done <<'END'
closed S;
strong S;
components S;
B := boundary S;
L := link S [1];
T := star S [1];
D := deletion S [1];
K := skeleton S 1;
add S [1,1000000];
END
