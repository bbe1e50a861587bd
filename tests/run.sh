#!/bin/sh
# The end to end cases: for each tests/cases/NAME.in the program's standard output and status have to be those of
# NAME.out and NAME.status (none: 0), for the words of NAME.words (one a line; none: the word run).
here=$(cd "$(dirname "$0")" && pwd)
simp=$here/../simp
work=$(mktemp -d) || exit 1
trap 'rm -rf "$work"' EXIT
passed=0
failed=0

judge() { # name, expected status, expected output, got status, got output
    if [ "$2" = "$4" ] && cmp -s "$3" "$5"; then
        passed=$((passed + 1))
    else
        failed=$((failed + 1))
        echo "case $1: status $4 (wanted $2)"
        diff "$3" "$5" | head -n 10
    fi
}

"$simp" run </dev/null >/dev/null || { echo "the program does not run"; exit 1; }

for input in "$here"/cases/*.in; do
    case=${input%.in}
    name=${case##*/}
    wanted=0
    [ -f "$case.status" ] && wanted=$(cat "$case.status")
    if [ -f "$case.words" ]; then
        set --
        while IFS= read -r word; do set -- "$@" "$word"; done <"$case.words"
    else
        set -- run
    fi
    "$simp" "$@" <"$input" >"$work/out" 2>"$work/err"
    judge "$name" "$wanted" "$case.out" "$?" "$work/out"
done

# what the standard streams may do to the program
: >"$work/none"
"$simp" run <"$here" >"$work/out" 2>/dev/null
judge "a directory cannot be read" 4 "$work/none" "$?" "$work/out"
if [ -w /dev/full ]; then
    echo 'show [];' | "$simp" run >/dev/full 2>/dev/null
    judge "a full device takes no output" 5 "$work/none" "$?" "$work/none"
fi
head -c 16777216 /dev/zero | tr '\0' ' ' | "$simp" run >"$work/out"
judge "as many spaces as the limit" 0 "$work/none" "$?" "$work/out"
head -c 16777217 /dev/zero | tr '\0' ' ' | "$simp" run >"$work/out"
judge "one space more than the limit" 6 "$work/none" "$?" "$work/out"

# a word of the command line that is no text
"$simp" "$(printf '\377')" </dev/null >"$work/out" 2>/dev/null
judge "a word that is no text" 7 "$work/none" "$?" "$work/out"

echo "$passed passed, $failed failed"
[ "$failed" -eq 0 ]
