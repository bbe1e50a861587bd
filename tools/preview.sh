#!/bin/sh
# Runs the program with its own words, as ./simp does, but unproved: its sources are compiled in under a minute, and what a proof
# would show is checked while it runs. For a first look in a fresh clone: tools/preview.sh run < examples/torus.simp
here=$(CDPATH='' cd -- "$(dirname -- "$0")/.." && pwd) || exit 70
command -v rt >/dev/null || {
    echo 'preview: the command rt of the toolchain is not on the path' >&2
    exit 70
}
echo 'preview: nothing of this run is proved. ./simp with the same words proves the program first, and then runs it' >&2
log=$(mktemp) || exit 70
trap 'rm -f "$log"' EXIT
(cd "$here/crates/simp_program" && exec rt try -- "$@") 2>"$log"
status=$(sed -n 's/^run=ended status=\([0-9]*\).*/\1/p' "$log")
if [ -z "$status" ]; then
    cat "$log" >&2
    exit 70
fi
exit "$status"
