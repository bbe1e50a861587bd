#!/bin/sh
# The trial from outside, as README.md says: tests/trial/run.sh [SCRIPTS] [SEED], by default 300 scripts, seed 1.
here=$(CDPATH='' cd -- "$(dirname -- "$0")" && pwd) || exit 1
simp=$here/../../simp
case ${1:-300}${2:-1} in
*[!0-9]*) echo "usage: tests/trial/run.sh [SCRIPTS] [SEED]"; exit 2 ;;
esac
python3 -c 'import sys; sys.exit(sys.version_info < (3, 8))' 2>/dev/null || {
    echo "no Python 3.8: the trial is left out"
    exit 0
}
node -e '' 2>/dev/null || {
    echo "no node: the trial is left out"
    exit 0
}
"$simp" run </dev/null >/dev/null || { echo "the program does not run"; exit 1; }
exec python3 -B "$here/compare.py" "$simp" "${1:-300}" "${2:-1}"
