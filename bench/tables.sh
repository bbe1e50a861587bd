#!/usr/bin/env bash
# Times the kept faces: the 30,005 tetrahedra of the stacked 3-sphere of 10,000 steps put into a lattice one after another,
# and taken out again. The program for it, tables/main.txt with its proof, is no crate of the repository: it is proved and built over
# copies of the crates that it stands on, in a folder that goes at the end. Prints seconds of the processor for one round, least
# of five runs, as differences: a run of twenty rounds less one of none. With TWIN, the path of a program that prints
# 'seconds: .. tables X ..' on standard error for `bench 3 10000 1` where TIMES=1, its X too, and the ratios.
here=$(cd "$(dirname "${BASH_SOURCE[0]}")" && pwd)
work=$(mktemp -d) || exit 1
trap 'rm -rf "$work"' EXIT
crates='simplex packed_keys ranked_set facet_set face_lattice seeded_words constructions'

build() {
    local name pattern
    mkdir -p "$work/crates/tables/src" || return
    for name in $crates; do
        mkdir "$work/crates/$name" || return
        cp -r "$here/../crates/$name/src" "$here/../crates/$name/specs" "$here/../crates/$name/proofs" "$work/crates/$name" 2>/dev/null
    done
    pattern="^(${crates// /|}):"
    grep -E "$pattern" "$here/../crates.txt" >"$work/crates.txt"
    echo 'tables: simplex facet_set face_lattice constructions' >>"$work/crates.txt"
    mkdir -p "$work/crates/tables/proofs/rounds_of" || return
    cp "$here/tables/main.txt" "$work/crates/tables/src/main.rt"
    cp "$here/tables/rounds_of.txt" "$work/crates/tables/proofs/rounds_of/Invariants.antt"
    (cd "$work/crates/tables" && rt run) >"$work/log" 2>&1
}

seconds() { # words
    local least= now i
    TIMEFORMAT='%U %S'
    for i in 1 2 3 4 5; do
        now=$({ time "$work/crates/tables/out/tables" "$@"; } 2>&1 | awk '{ printf "%.4f", $1 + $2 }')
        least=$(awk -v a="$least" -v b="$now" 'BEGIN { print (a == "" || b < a) ? b : a }')
    done
    echo "$least"
}

twin() {
    local least= now i
    for i in 1 2 3 4 5; do
        now=$(TIMES=1 "$TWIN" bench 3 10000 1 2>&1 >/dev/null | sed -n 's/.* tables \([0-9.]*\) .*/\1/p')
        least=$(awk -v a="$least" -v b="$now" 'BEGIN { print (a == "" || b < a) ? b : a }')
    done
    echo "$least"
}

build || {
    tail -n 20 "$work/log" >&2
    exit 1
}
none=$(seconds)
come=$(seconds come)
both=$(seconds come go)
awk -v n="$none" -v c="$come" -v b="$both" -v t="${TWIN:+$(twin)}" 'BEGIN {
    comes = (c - n) / 20; goes = (b - c) / 20
    printf "30,005 facets come: %.4f s, go: %.4f s\n", comes, goes
    if (t != "") printf "the tables of the twin: %.4f s; ratios %.2f and %.2f\n", t, comes / t, goes / t
}'
