#!/bin/sh
# The launcher ./simp over a stand-in for `rt`, in a small copy of the repository: what it builds and when, what it says, and that
# words which are none of the program's build nothing.
here=$(cd "$(dirname "$0")" && pwd)
work=$(mktemp -d) || exit 1
trap 'rm -rf "$work"' EXIT
failed=0
checked=0

holds() { # what is checked, a test that holds
    checked=$((checked + 1))
    what=$1
    shift
    "$@" || {
        failed=$((failed + 1))
        echo "launcher: not so: $what"
    }
}
builds() { grep -c '^all' "$work/calls"; }
has() { grep -q -- "$1" "$2"; }
lacks() { ! grep -q -- "$1" "$2"; }
comes() { # a test that holds in the end; a minute at most
    turn=0
    until "$@" 2>/dev/null; do
        turn=$((turn + 1))
        [ "$turn" -lt 600 ] || return 1
        sleep 0.1
    done
}
has_built() { [ "$(builds)" -ge "$1" ]; }

mkdir -p "$work/repo/tools" "$work/bin"
cp "$here/../simp" "$work/repo/simp"
cp "$here/../tools/build.sh" "$here/../tools/costs.txt" "$work/repo/tools"
for crate in low high simp_program; do mkdir -p "$work/repo/crates/$crate/src" && echo 1 >"$work/repo/crates/$crate/src/lib.rt"; done
printf 'low:\nhigh: low\nsimp_program: high\n' >"$work/repo/crates.txt"
: >"$work/calls"
: >"$work/held"

# `rt all check` writes a line a crate, waits behind the first while $work/held is there, and fails where $work/broken is; `rt run`
# builds a program that writes what the source had when it was built.
cat >"$work/bin/rt" <<END
#!/bin/sh
echo "\$*" >>"$work/calls"
case \$1 in
all)
    cat crates/low/src/lib.rt >"$work/seen"
    for crate in low high simp_program; do
        printf '== %s\nlogic=proved functions=1\n' "\$crate"
        while [ -f "$work/held" ]; do sleep 0.1; done
    done
    [ -f "$work/broken" ] && { echo 'high NOT PROVED'; exit 1; }
    printf '== summary\n3 of 3 crates ok\n'
    ;;
run)
    mkdir -p out && { echo '#!/bin/sh'; echo "cat >/dev/null; echo built from \$(cat "$work/seen") with \\"\\\$*\\""; } >out/new &&
        chmod +x out/new && mv out/new out/simp_program
    ;;
esac
END
chmod +x "$work/bin/rt"
PATH=$work/bin:$PATH
cd "$work" || exit 1
simp=$work/repo/simp

# wrong words
"$simp" >"$work/out" 2>"$work/err"
holds 'no words: status 2' [ $? -eq 2 ]
holds 'no words: the usage line' [ "$(cat "$work/out")" = 'usage: simp run | simp replay | simp bench D N SEED' ]
"$simp" --help x >"$work/out" 2>"$work/err"
holds 'a wrong word: status 2' [ $? -eq 2 ]
holds 'wrong words build nothing' [ "$(builds)" -eq 0 ]

# an edit while it builds; several calls at once
"$simp" run </dev/null >"$work/out.1" 2>"$work/err.1" &
first=$!
holds 'the first call builds' comes has_built 1
holds 'it says which of how many' comes has '1 of 3 crates proved' "$work/err.1"
echo 2 >"$work/repo/crates/low/src/lib.rt"
"$simp" run </dev/null >"$work/out.2" 2>"$work/err.2" &
second=$!
holds 'the second call says that it waits' comes has 'another call is building' "$work/err.2"
rm "$work/held"
wait "$first"
holds 'the first call: status 0' [ $? -eq 0 ]
wait "$second"
holds 'the call that waited: status 0' [ $? -eq 0 ]
holds 'it says how many crates' has 'all 3 crates' "$work/err.1"
holds "the prover's lines are not shown" lacks 'logic=proved' "$work/err.1"
holds 'the first build has what the source had' has 'built from 1' "$work/out.1"
"$simp" run </dev/null >"$work/out" 2>"$work/err"
holds 'an edit made in a build is built by a later call' has 'built from 2' "$work/out"
before=$(builds)
"$simp" run a b </dev/null >"$work/out" 2>"$work/err"
holds 'what is built is run at once' [ "$(builds)" -eq "$before" ]
holds 'and is given its words' has 'with run a b' "$work/out"
holds 'and nothing is said' [ ! -s "$work/err" ]
ln -s "$simp" "$work/link"
./link replay </dev/null >"$work/out" 2>"$work/err"
holds 'through a link' has 'with replay' "$work/out"

echo 3 >"$work/repo/crates/low/src/lib.rt"
before=$(builds)
for i in 1 2 3 4; do "$simp" run </dev/null >"$work/out.$i" 2>"$work/err.$i" & done
wait
holds 'of four calls at once one builds' [ "$(builds)" -eq $((before + 1)) ]

# a build that is stopped, one that fails
: >"$work/held"
echo 4 >"$work/repo/crates/low/src/lib.rt"
before=$(builds)
"$simp" run </dev/null >"$work/out" 2>"$work/err" &
stopped=$!
comes has_built $((before + 1))
for child in $(pgrep -P "$stopped"); do kill -TERM "$child"; done
wait "$stopped"
holds 'a stopped build: status 70' [ $? -eq 70 ]
holds 'it says so' has 'the build was stopped' "$work/err"
nothing_runs() { [ -z "$(pgrep -f "$work/bin/rt")" ]; }
holds 'nothing goes on behind it' comes nothing_runs
rm "$work/held"
: >"$work/broken"
"$simp" run </dev/null >"$work/out" 2>"$work/err"
holds 'a build that fails: status 70' [ $? -eq 70 ]
holds 'it names the file with the lines' has 'build.log' "$work/err"
holds 'which has them' has 'NOT PROVED' "$work/repo/crates/simp_program/out/build.log"
rm "$work/broken"
"$simp" run </dev/null >"$work/out" 2>"$work/err"
holds 'the next call goes on' has 'built from 4' "$work/out"

# no toolchain
echo 5 >"$work/repo/crates/low/src/lib.rt"
PATH=${PATH#"$work/bin:"}
mkdir "$work/none"
for tool in sh find sed dirname readlink mkdir; do ln -s "$(command -v $tool)" "$work/none/$tool"; done
PATH=$work/none "$simp" run </dev/null >"$work/out" 2>"$work/err"
holds 'without rt: status 70' [ $? -eq 70 ]
holds 'it says what is missing' has 'not on the path' "$work/err"

# the program's own words, where it is built
program=$here/../crates/simp_program/out/simp_program
if [ -x "$program" ]; then
    for words in '' help '--help run' 'runs' 'RUN'; do
        # shellcheck disable=SC2086
        "$program" $words >"$work/own" </dev/null
        own=$?
        # shellcheck disable=SC2086
        "$here/../simp" $words >"$work/out" </dev/null
        holds "the launcher's status for '$words'" [ $? -eq "$own" ]
        holds "the launcher's line for '$words'" cmp -s "$work/own" "$work/out"
    done
fi
echo "$checked points of the launcher, $failed failed"
[ "$failed" -eq 0 ]
