#!/bin/sh
# Proves every crate and builds the program, for ./simp. Of several calls at once one builds, and the others wait. An
# interrupt reaches the build; what it has proved by then is kept. The program gets the time at which the build began,
# so that an edit made meanwhile is built by the next call.
here=$(CDPATH='' cd -- "$(dirname -- "$0")/.." && pwd) || exit
out=$here/crates/simp_program/out
program=$out/simp_program
log=$out/build.log
begun=$out/build.begun
mkdir -p "$out" || exit

say() {
    echo "simp: $*" >&2
}

is_old() {
    [ ! -x "$program" ] ||
        [ -n "$(find "$here/crates.txt" "$here"/crates/*/src "$here"/crates/*/specs "$here"/crates/*/proofs \
            -newer "$program" -type f -print -quit 2>/dev/null)" ]
}

build() {
    cd "$here" && rt all check --jobs "$jobs" && cd crates/simp_program && rt run -- run </dev/null
}

# The crates that are done, by name.
done_crates() {
    sed -n 's/^== \([a-z_0-9]*\)$/\1/p' "$log" | grep -v '^summary$'
}

# How many crates are done, and which part of the whole cost, in thousandths.
progress() {
    done_crates | awk -v costs="$here/tools/costs.txt" -v crates="$here/crates.txt" '
        BEGIN {
            while ((getline line <costs) > 0) if (split(line, part, " ") == 2 && line !~ /^#/) cost[part[1]] = part[2]
            while ((getline line <crates) > 0) if (line ~ /^[a-z_0-9]+:/) {
                name = line; sub(/:.*/, "", name)
                if (!(name in cost)) cost[name] = 60
                all += cost[name]; count++
            }
        }
        !seen[$1]++ { ready++; sum += cost[$1]; last = $1 }
        END { print ready + 0, count, int(1000 * sum / all), last }'
}

show() { # crates done, of how many, thousandths of the cost, the last crate
    now=$(date +%s)
    spent=$(((now - start) / 60))
    left=$(((whole * (1000 - $3) / 1000 + 59) / 60))
    if [ "$3" -ge 100 ]; then
        left=$((((now - start) * (1000 - $3) / $3 + 59) / 60))
    fi
    line="$1 of $2 crates proved, $spent min, about $left min left"
    if [ -t 2 ]; then
        printf '\rsimp: %-70s' "$line" >&2
    elif [ "$1" != "$shown" ]; then
        say "$line${4:+ ($4)}"
    fi
    shown=$1
}

stop() { # status
    trap '' INT TERM HUP
    [ -n "$child" ] && kill -TERM "$group$child" 2>/dev/null
    wait
    if [ -t 2 ]; then echo >&2; fi
    say "the build was stopped; the next call goes on from what was proved"
    exit "$1"
}

if ! command -v rt >/dev/null; then
    say "the program is not built yet, and the toolchain's command rt, which proves and builds it, is not on the path"
    exit 70
fi
if command -v flock >/dev/null; then
    exec 9>"$out/build.lock" || exit
    if ! flock -n 9; then
        say 'another call is building; waiting for it'
        flock 9 || exit
    fi
    is_old || exit 0
fi

jobs=$(getconf _NPROCESSORS_ONLN) || jobs=1
[ "$jobs" -le 4 ] || jobs=4
whole=$((60 * $(sed -n "s/^minutes $jobs //p" "$here/tools/costs.txt" | grep . || echo 60)))
start=$(date +%s)
shown=
child=
group=
: >"$log" && : >"$begun" || exit
count=$(grep -c '^[a-z_0-9]*:' "$here/crates.txt")
if [ -x "$program" ]; then
    say "a source changed: proving what stands on it (at most $count crates) and building"
else
    say "the first call proves all $count crates and builds the program: about $((whole / 60)) minutes on $jobs processors, 6 GB of disk, 4 GB of memory"
fi
trap 'stop 130' INT
trap 'stop 143' TERM
trap 'stop 129' HUP
if command -v setsid >/dev/null; then
    group=-
    jobs=$jobs here=$here setsid sh -c 'cd "$here" && rt all check --jobs "$jobs" && cd crates/simp_program && rt run -- run </dev/null' >"$log" 2>&1 9>&- &
else
    build >"$log" 2>&1 9>&- &
fi
child=$!
while kill -0 "$child" 2>/dev/null; do
    # shellcheck disable=SC2046
    show $(progress)
    sleep 1
done
wait "$child"
status=$?
if [ -t 2 ]; then echo >&2; fi
if [ "$status" -ne 0 ] || [ ! -x "$program" ]; then
    say "the program is not proved and built; the prover's lines are in $log"
    exit 70
fi
touch -r "$begun" "$program"
