#!/usr/bin/env bash
# Times `run` on 16 MB in one command with comments, in 100,000 commands and in 2,000,000, and prints the seconds of the
# processor and the greatest resident memory where /proc tells it; then the median time of a reply in a conversation of
# 1,000 commands, beside that of `cat`, which is what the client itself takes. With OLD=PROGRAM, an older program, also
# its seconds and the ratio to them.
. "$(dirname "$0")/common.bash"
simp=$here/../crates/simp_program/out/simp_program
LC_ALL=C

one_command() {
    awk 'BEGIN {
        printf "show ["
        for (size = 0; size < 15900000; size += length(text)) {
            a++
            text = (a > 1 ? "," : "") "[" a "," a + 1 "," a + 2 "]" (a % 200 ? "" : " # no ; ends a command here\n")
            printf "%s", text
        }
        print "];"
    }'
}

commands() { # how many, how each is printed, its text
    awk -v count="$1" -v form="$2" -v text="$3" 'BEGIN { while (count--) printf form, text }'
}

measure() { # name, file
    local now old=
    now=$(seconds "$2")
    [ -z "$OLD" ] || old=$(simp=$OLD seconds "$2")
    echo "$1: $now s, peak $(peak "$2") MB${old:+, before $old s, ratio $(ratio "$old" "$now")}"
}

median() { # program, words
    local n before times=() PEER_PID
    coproc PEER { exec "$@"; }
    for ((n = 0; n < 1000; n++)); do
        before=${EPOCHREALTIME/./}
        echo 'show [[1,2]];' >&"${PEER[1]}"
        read -r -t 20 -u "${PEER[0]}" || return 1
        times+=($((${EPOCHREALTIME/./} - before)))
    done
    exec {PEER[1]}>&-
    wait "$PEER_PID"
    printf '%s\n' "${times[@]}" | sort -n | sed -n 500p
}

one_command >"$work/one"
measure "16 MB in one command" "$work/one"
commands 100000 '%-159s\n' 'show [[1,2,3],[1,2,4],[1,3,4],[2,3,4]]; # a;' >"$work/many"
measure "16 MB in 100,000 commands" "$work/many"
commands 2000000 %s 'show [];' >"$work/most"
measure "16 MB in 2,000,000 commands" "$work/most"
echo "a reply in a conversation: $(median "$simp" run) us, cat: $(median cat) us"
