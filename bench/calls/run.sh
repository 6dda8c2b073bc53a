#!/bin/sh
# Counts by callgrind the instructions of `pl_expand::expand` on roots that call and extend templates, reading the files
# left out, and prints them for each node that is counted; then the least stack, in KiB, that each of them runs in. Needs
# valgrind and python3 beside the kit. The program is proved before it is built: where none of these crates is proved
# that takes an hour and more, and else some minutes. Not a part of the gate.
set -e
here=$(cd "$(dirname "$0")" && pwd)
top=$(cd "$here/../.." && pwd)
command -v valgrind >/dev/null || { echo "valgrind is needed: apt-get install valgrind" >&2; exit 1; }
work=$(mktemp -d)
trap 'rm -rf "$work"' EXIT
mkdir -p "$work/crates/calls/src" "$work/texts"
for crate in $("$top/tools/below" pl_expand); do
    cp -r "$top/crates/$crate" "$work/crates/"
    grep "^$crate[: ]" "$top/crates.txt" >>"$work/crates.txt"
done
echo "calls: pl_base pl_expand" >>"$work/crates.txt"
cp "$top/HANDLES" "$work/"
cp "$here/calls.rt.in" "$work/crates/calls/src/main.rt"
(cd "$work/crates/calls" && echo 'a: b' | rt run -- expand >"$work/log" 2>&1) || { cat "$work/log" >&2; exit 1; }
python3 "$here/texts.py" "$work/texts" >"$work/list"
python3 - "$work/crates/calls/out/calls" "$work" <<'PYTHON'
import re
import subprocess
import sys

program, work = sys.argv[1:]


def instructions(text, word):
    """The instructions of the program over a text."""
    command = ["valgrind", "--tool=callgrind", "--callgrind-out-file=/dev/null", program, word]
    with open(text, "rb") as file:
        done = subprocess.run(command, stdin=file, capture_output=True)
    if done.returncode != 0:
        sys.exit(f"{text}: status {done.returncode} of {word}")
    return int(re.search(r"Collected : (\d+)", done.stderr.decode()).group(1))


def runs(text, stack):
    """Whether the expansion ends in so many KiB of stack."""
    command = f"ulimit -s {stack}; exec {program} expand"
    with open(text, "rb") as file:
        return subprocess.run(["sh", "-c", command], stdin=file, capture_output=True).returncode == 0


def least_stack(text):
    low, high = 16, 65536
    while high - low > 16:
        middle = (low + high) // 2
        low, high = (low, middle) if runs(text, middle) else (middle, high)
    return high


print(f"{'text':24} {'nodes':>7} {'expand':>12} {'a node':>7} {'stack':>6}")
with open(f"{work}/list") as names:
    rows = [row.split() for row in names]
for name, nodes in rows:
    text = f"{work}/texts/{name}"
    ours = instructions(text, "expand") - instructions(text, "read")
    print(f"{name:24} {nodes:>7} {ours:12} {ours / int(nodes):7.0f} {least_stack(text):6}", flush=True)
PYTHON
