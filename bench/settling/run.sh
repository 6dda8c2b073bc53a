#!/bin/sh
# Counts by callgrind the instructions of one settling that has nothing to add, with 100 and with 1,000 open runs of three
# stages, and prints both and their ratio: where the first stages wait for an approval, where they wait for one exclusive
# resource, and where they run and their jobs are taken. It goes by the program of cases (`cases_settling`), which reads a script, and
# takes the difference of scripts that settle once more and some times more. Needs valgrind and python3 beside the kit. The
# program is proved before it is built, or its path is the word behind. 1,000 runs that start take callgrind some minutes, so
# of running stages 300 are counted in their place. Not a part of the gate.
set -e
here=$(cd "$(dirname "$0")" && pwd)
top=$(cd "$here/../.." && pwd)
command -v valgrind >/dev/null || { echo "valgrind is needed: apt-get install valgrind" >&2; exit 1; }
work=$(mktemp -d)
trap 'rm -rf "$work"' EXIT
program=$1
if [ -z "$program" ]; then
    "$top/tools/beside" --keep "$work/beside" cases_settling >"$work/log" 2>&1 || { cat "$work/log" >&2; exit 1; }
    program=$work/beside/crates/cases_settling/out/cases_settling
fi
python3 - "$here/scripts.py" "$program" "$work" <<'PYTHON'
import re
import subprocess
import sys

scripts, program, work = sys.argv[1:]


def instructions(shape, runs, times):
    """The instructions of a whole process over a script that settles so many times more."""
    script = f"{work}/script"
    with open(script, "w") as file:
        subprocess.run([sys.executable, scripts, shape, str(runs), str(times)], stdout=file, check=True)
    command = ["valgrind", "--tool=callgrind", "--callgrind-out-file=/dev/null", program]
    with open(script, "rb") as file:
        done = subprocess.run(command, stdin=file, capture_output=True, check=True)
    assert b"not read" not in done.stdout
    return int(re.search(r"Collected : (\d+)", done.stderr.decode()).group(1))


def settling(shape, runs, times):
    """The instructions of one settling that has nothing to add."""
    return (instructions(shape, runs, times) - instructions(shape, runs, 1)) // (times - 1)


for shape, runs in (("checked", 1000), ("locked", 1000), ("running", 300)):
    few, many = settling(shape, 100, 11), settling(shape, runs, 3)
    print(f"{shape}: {few} instructions with 100 open runs, {many} with {runs}, ratio {many / few:.1f}", flush=True)
PYTHON
