#!/bin/sh
# The cases once more with their input through a pipe, one byte at a time, and conversations with the program.
python3 -c 'import sys; sys.exit(sys.version_info < (3, 8))' 2>/dev/null || {
    echo "no Python 3.8: nothing is given through pipes"
    exit 0
}
exec python3 "$(dirname "$0")/pipes.py"
