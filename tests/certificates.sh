#!/bin/sh
# The certificates in the end to end cases, checked in another language by tools/check_certificates.py: what a case of
# `replay` expects has to be what that program writes, with its status. Each expected transcript NAME.out that holds
# certificates has to be the input of a case NAME-replay.
here=$(cd "$(dirname "$0")" && pwd)
python3 -c 'import sys; sys.exit(sys.version_info < (3, 8))' 2>/dev/null || {
    echo "no Python 3.8: the certificates in the cases are not checked a second time"
    exit 0
}
work=$(mktemp) || exit 1
trap 'rm -f "$work"' EXIT
checked=0
failed=0
fail() { # what is wrong
    failed=$((failed + 1))
    echo "$1"
}

for words in "$here"/cases/*.words; do
    [ "$(cat "$words")" = replay ] || continue
    case=${words%.words}
    wanted=0
    [ -f "$case.status" ] && wanted=$(cat "$case.status")
    python3 "$here/../tools/check_certificates.py" <"$case.in" >"$work"
    [ "$?" = "$wanted" ] && cmp -s "$case.out" "$work" || fail "${case##*/}: the checker in Python writes something else"
    checked=$((checked + 1))
done
for out in "$here"/cases/*.out; do
    grep -q '^certificate ' "$out" || continue
    cmp -s "$out" "${out%.out}-replay.in" || fail "${out##*/}: its certificates are not replayed by a case of their own"
done

echo "$checked replays checked in Python, $failed failed"
[ "$failed" -eq 0 ]
