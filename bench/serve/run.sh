#!/bin/sh
# Measures `pipectl serve` on this machine's loopback, as README.md beside it says:
#
#     bench/serve/run.sh [PROGRAM [PART..]]
#
# PROGRAM is crates/pipectl/out/pipectl where none is named. The parts: `ours` (in memory and with a store), `buildbot`, `commits`,
# `idle` and `instructions`; all of them where none is named. Files stand below the current folder: be on the disk that is to be measured.
# CLIENTS, HOW, LASTS, QUEUES, TURNS, TIMES and OF change how much of it. Needs gcc and python3, Debian's buildbot for `buildbot` and `instructions`,
# valgrind for the latter. Not a part of the gate.
set -e
here=$(cd "$(dirname "$0")" && pwd)
program=$(realpath "${1:-$here/../../crates/pipectl/out/pipectl}")
[ $# -eq 0 ] || shift
work=$(mktemp -d)
trap 'rm -rf "$work"' EXIT
gcc -O2 -o "$work/load" "$here/load.c"
[ $# -gt 0 ] || set -- ours buildbot commits idle instructions
python3 -B "$here/measure.py" "$work/load" "$program" "$@"
