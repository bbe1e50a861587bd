# What the scripts of this folder share: the program, a folder for their inputs, times and memory. Times are seconds of
# the processor, so that they say little of what else the machine does.
here=$(cd "$(dirname "${BASH_SOURCE[0]}")" && pwd)
simp=$here/../simp
work=$(mktemp -d) || exit 1
trap 'rm -rf "$work"' EXIT
"$simp" run </dev/null || exit 1

seconds() { # input
    TIMEFORMAT='%U %S'
    { time "$simp" run <"$1" >"$work/out"; } 2>&1 | awk '{ printf "%.3f", $1 + $2 }'
}

peak() { # input: the greatest resident memory in megabytes, where /proc tells it
    "$simp" run <"$1" >"$work/out" &
    local most=0 now
    while kill -0 "$!" 2>/dev/null; do
        now=$(awk '/^VmHWM/ { print int($2 / 1024) }' "/proc/$!/status" 2>/dev/null)
        [ -n "$now" ] && most=$now
        sleep 0.02
    done
    echo "$most"
}

ratio() { # seconds before, seconds now
    awk -v a="$1" -v b="$2" 'BEGIN { if (a == "" || a <= 0) print "-"; else printf "%.2f", b / a }'
}

# How long the second command takes behind the first: sets `alone` and `took`, and leaves both in $work/ask.
behind() { # file of the first command, second command
    cat "$1" >"$work/ask"
    echo "$2" >>"$work/ask"
    alone=$(seconds "$1")
    took=$(awk -v a="$alone" -v b="$(seconds "$work/ask")" 'BEGIN { printf "%.3f", b - a }')
}

# `S := ..`, the boundary of a 4-simplex, stacked upon a facet at a time: n vertices make 3 n - 10 tetrahedra. They
# stand in the order in which they are made.
make_sphere() { # facets
    awk -v want="$1" '
        function label() { seed = (seed * 16807) % 2147483647; return seed }
        function add(a, b, c, d) { count++; A[count] = a; B[count] = b; C[count] = c; D[count] = d }
        BEGIN {
            seed = 12345
            add(1, 2, 3, 4); add(1, 2, 3, 5); add(1, 2, 4, 5); add(1, 3, 4, 5); add(2, 3, 4, 5)
            for (v = 6; count < want; v++) {
                k = label() % count + 1; a = A[k]; b = B[k]; c = C[k]; d = D[k]
                D[k] = v; add(a, b, d, v); add(a, c, d, v); add(b, c, d, v)
            }
            printf "S := ["
            for (k = 1; k <= count; k++) printf("%s[%d,%d,%d,%d]", (k > 1 ? "," : ""), A[k], B[k], C[k], D[k])
            print "];"
        }'
}
