#!/usr/bin/env bash
# Runs the whole gate from nothing (rt ci --anew) and prints, crate by crate, the processor time of its proofs: of the
# crate, of the crate with its tests, and of its must-fail edits. Read from /proc once a second, so an edit that takes
# less counts for nothing. Linux alone.
cd "$(dirname "$0")/.." || exit 1
work=$(mktemp -d) || exit 1
trap 'rm -rf "$work"' EXIT
begun=$(date +%s)
rt ci --anew >"$work/log" 2>&1 &
gate=$!
while kill -0 "$gate" 2>/dev/null; do
    for stat in /proc/[0-9]*/stat; do
        read -r line <"$stat" || continue
        [[ $line == *"(rattle)"* || $line == *"(antt-kernel)"* ]] || continue
        pid=${stat//[!0-9]/}
        args=$(tr '\0' ' ' <"/proc/$pid/cmdline") || continue
        [[ $args == *--crate-name* ]] || continue
        crate=${args#*--crate-name }
        crate=${crate%% *}
        case $(readlink "/proc/$pid/cwd") in
            */rt-edit*) kind=edits ;;
            *) [[ $args == *" --test"* ]] && kind=tests || kind=proofs ;;
        esac
        set -- ${line##*) }
        echo "$crate $kind $pid $((${12} + ${13} + ${14} + ${15}))"
    done >>"$work/samples" 2>/dev/null
    sleep 1
done
wait "$gate"
status=$?
tail -n 1 "$work/log"
echo "minutes: $((($(date +%s) - begun + 30) / 60))"
awk -v hz="$(getconf CLK_TCK)" '
    { at = $1 " " $2 " " $3; if ($4 > most[at]) most[at] = $4 }
    END {
        for (at in most) { split(at, part, " "); sum[part[1] " " part[2]] += most[at] / hz; crates[part[1]] }
        printf "%-18s %8s %8s %8s\n", "crate, seconds of", "proofs", "tests", "edits"
        for (crate in crates)
            printf "%-18s %8.0f %8.0f %8.0f\n", crate, sum[crate " proofs"], sum[crate " tests"], sum[crate " edits"] | "sort"
    }' "$work/samples"
exit "$status"
