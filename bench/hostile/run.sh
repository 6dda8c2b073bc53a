#!/bin/sh
# Compiles inputs that want as much of `pipectl compile` as they can (shapes.py), and prints the seconds of processor time, the
# most memory in MB, the most stack in KiB and the status of each. Fails where one is over the goal (2 seconds, 200 MB, 8 MiB of
# stack), ends by a signal, answers otherwise than its rule or want of memory, or doesn't tell the budget that it passed. Needs
# python3, and Linux, which tells the stack at a process's end. Not a part of the gate.
#
#     bench/hostile/run.sh [PROGRAM [PART-OF-A-NAME]...]
#
# PROGRAM is pipectl as it was built. Without it, it is built here, which proves all that isn't proved yet.
set -e
here=$(cd "$(dirname "$0")" && pwd)
top=$(cd "$here/../.." && pwd)
program=$1
if [ -z "$program" ]; then
    "$top/tools/prove" >&2
    program=$top/crates/pipectl/out/pipectl
else
    shift
fi
PYTHONDONTWRITEBYTECODE=1 exec python3 "$here/measure.py" "$program" "$@"
