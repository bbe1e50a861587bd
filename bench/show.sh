#!/usr/bin/env bash
# Times `show` on 2, 4, 8 and 16 MB of triangles, and on as many bytes of mixed edges, triangles and tetrahedra.
# Prints seconds of the processor, the ratio to half the size, and the greatest resident memory where /proc tells it.
. "$(dirname "$0")/common.bash"

make_input() { # bytes, kind
    awk -v bytes="$1" -v kind="$2" '
        function label() { seed = (seed * 16807) % 2147483647; return seed % 99991 + 1 }
        BEGIN {
            seed = 12345; printf "show ["; size = 8; first = 1
            while (size < bytes - 40) {
                n = kind == "triangles" ? 3 : int(label() % 3) + 2
                a = label() % 99000 + 1; text = "[" a
                for (i = 1; i < n; i++) { a += label() % 100 + 1; text = text "," a }
                text = text "]"; if (!first) text = "," text
                first = 0; printf "%s", text; size += length(text)
            }
            printf "];\n"
        }'
}

for kind in triangles mixed; do
    before=
    for mb in 2 4 8 16; do
        make_input $((mb * 1000000)) "$kind" >"$work/in"
        now=$(seconds "$work/in")
        echo "show $kind $mb MB: $now s, ratio $(ratio "$before" "$now"), peak $(peak "$work/in") MB"
        before=$now
    done
done
