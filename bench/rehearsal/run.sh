#!/bin/sh
# Runs `pipectl rehearse` with 1 to 4,096 runs, compares each line with what the input alone tells, and prints it with the time that
# it took; then the instructions of 512 and of 4,096 runs, counted by callgrind, and their ratio. 1 where a line is wrong. It goes by
# the proved program (`tools/prove` builds it), or by the one whose path is the word behind; words behind that are the numbers of
# runs. Needs valgrind and python3 beside the kit. Not a part of the gate.
set -e
here=$(cd "$(dirname "$0")" && pwd)
command -v valgrind >/dev/null || { echo "valgrind is needed: apt-get install valgrind" >&2; exit 1; }
program=${1:-$here/../../crates/pipectl/out/pipectl}
[ $# -eq 0 ] || shift
python3 "$here/measure.py" "$program" "$@"
