#!/bin/sh
# The examples of docs/MANUAL.md. A block that begins with the line "```simp WORDS" is what the program reads, called
# with these words. The next block is what it has to write, and a line "Status N." after that its status (none: 0).
here=$(cd "$(dirname "$0")" && pwd)
simp=$here/../simp
work=$(mktemp -d) || exit 1
trap 'rm -rf "$work"' EXIT
failed=0

"$simp" run </dev/null >/dev/null || { echo "the program does not run"; exit 1; }

awk -v work="$work" '
    at == "status" {
        at = ""
        if ($1 == "Status") { print $2 + 0 >(file ".status"); close(file ".status") }
    }
    at == "" && /^```simp / {
        at = "in"; file = work "/" NR
        print substr($0, 9) >(file ".words"); close(file ".words")
        printf "" >(file ".in"); printf "" >(file ".out"); next
    }
    /^```$/ && at == "in" { at = "between"; close(file ".in"); next }
    /^```$/ && at == "between" { at = "out"; next }
    /^```$/ && at == "out" { at = "status"; close(file ".out"); next }
    at == "in" || at == "out" { print >(file "." at) }
    at == "between" && NF { exit }
    END {
        if (at == "in" || at == "between" || at == "out") { print "an example without its output ends at line " NR; exit 1 }
        if (file == "") { print "the manual has no examples"; exit 1 }
    }
' "$here/../docs/MANUAL.md" || exit 1

for words in "$work"/*.words; do
    case=${words%.words}
    wanted=0
    [ -f "$case.status" ] && wanted=$(cat "$case.status")
    "$simp" $(cat "$words") <"$case.in" >"$work/got" 2>/dev/null
    status=$?
    [ "$status" = "$wanted" ] && cmp -s "$case.out" "$work/got" && continue
    failed=$((failed + 1))
    echo "the example at line ${case##*/} of docs/MANUAL.md: status $status (wanted $wanted)"
    diff "$case.out" "$work/got" | head -n 10
done

set -- "$work"/*.in
echo "$# examples of the manual run, $failed failed"
[ "$failed" -eq 0 ]
