#!/usr/bin/env bash
# Times the largest constructions: stacked spheres and cyclic polytopes near the limit of weights.
# Prints the seconds of each, the ratio to the one before in its line, and the memory.
. "$(dirname "$0")/common.bash"

series() { # commands, each larger than the one before
    local before= now
    for command in "$@"; do
        echo "$command" >"$work/in"
        now=$(seconds "$work/in")
        echo "$command $now s, ratio $(ratio "$before" "$now"), peak $(peak "$work/in") MB, $(cut -c1-40 "$work/out")"
        before=$now
    done
}

series "S := stacked 2 25000 1;" "S := stacked 2 50000 1;" "S := stacked 2 100000 1;"
series "S := stacked 3 25000 1;" "S := stacked 3 50000 1;" "S := stacked 3 100000 1;"
series "C := cyclic 2 75000;" "C := cyclic 2 150000;" "C := cyclic 2 300000;"
series "C := cyclic 4 250;" "C := cyclic 4 500;" "C := cyclic 4 1000;"
series "C := cyclic 8 60;" "C := cyclic 12 1000000;"
