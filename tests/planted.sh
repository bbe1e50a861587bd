#!/bin/sh
# Bugs planted by hand, beside those of crates/NAME/must-fail that the gate tries: tests/planted/NAME/*.edit, which
# tests/planted/NAME/README.md describes. The prover has to refuse each, on a copy of the repository. Not part of the
# gate, which they would make three times as long. Crates may be named; with none, all are tried.
here=$(cd "$(dirname "$0")/.." && pwd)
work=$(mktemp -d) || exit 1
trap 'rm -rf "$work"' EXIT
[ $# -gt 0 ] || set -- $(ls -d "$here"/tests/planted/*/ | xargs -n 1 basename)
(cd "$here" && git ls-files -z --cached --others --exclude-standard | xargs -0 tar cf -) | tar xf - -C "$work" || exit 1
rm -rf "$work"/crates/*/must-fail
for name; do
    mkdir "$work/crates/$name/must-fail" && cp "$here/tests/planted/$name"/*.edit "$work/crates/$name/must-fail" || exit 1
done
cd "$work" && rt ci "$@"
