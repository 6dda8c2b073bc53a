#!/bin/sh
# Counts by callgrind the instructions of `pl_expand::expand` on hostile root files, reading them left out, and those of
# reading with `pl_yaml::read` a plain text of the same bytes and nodes, or of as many nodes as the expansion counts; those
# of an empty text are taken off. Then the instructions of one use of a name, beside more and more of what isn't used,
# and of one turn of longer and longer loops that names an item of what the loop goes over.
# Needs valgrind and python3 beside the kit. The program is proved before it is built: on a machine that has none of these
# crates proved that takes an hour and more, and else some minutes. Not a part of the gate.
set -e
here=$(cd "$(dirname "$0")" && pwd)
top=$(cd "$here/../.." && pwd)
command -v valgrind >/dev/null || { echo "valgrind is needed: apt-get install valgrind" >&2; exit 1; }
work=$(mktemp -d)
trap 'rm -rf "$work"' EXIT
mkdir -p "$work/crates/calls/src" "$work/texts"
for crate in $("$top/tools/below" pl_expand); do
    cp -r "$top/crates/$crate" "$work/crates/"
    grep "^$crate[: ]" "$top/crates.txt" >>"$work/crates.txt"
done
echo "calls: pl_base pl_expand" >>"$work/crates.txt"
cp "$top/HANDLES" "$work/"
# the program is that of the bench of calls, which reads a root file alone too
cp "$top/bench/calls/calls.rt.in" "$work/crates/calls/src/main.rt"
(cd "$work/crates/calls" && echo 'a: b' | rt run -- expand >"$work/log" 2>&1) || { cat "$work/log" >&2; exit 1; }
python3 "$here/texts.py" "$work/texts" >"$work/list"
python3 - "$work/crates/calls/out/calls" "$work" <<'PYTHON'
import re
import subprocess
import sys

program, work = sys.argv[1:]


def instructions(text, word, expands=True):
    """The instructions of the program over a text."""
    command = ["valgrind", "--tool=callgrind", "--callgrind-out-file=/dev/null", program, word]
    with open(text, "rb") as file:
        done = subprocess.run(command, stdin=file, capture_output=True)
    if done.returncode != (0 if expands else 1):
        sys.exit(f"{text}: status {done.returncode} of {word}")
    return int(re.search(r"Collected : (\d+)", done.stderr.decode()).group(1))


def expanding(text, expands=True):
    """Those of the expansion alone."""
    return instructions(text, "expand", expands) - instructions(text, "read")


with open(f"{work}/empty", "w"):
    none = instructions(f"{work}/empty", "read")
print(f"{'text':18} {'bytes':>7} {'expand':>13} {'read plain':>13} {'ratio':>6}  plain text")
with open(f"{work}/list") as names:
    rows = [row.rstrip("\n").split("\t") for row in names]
for name, comes, like in rows:
    text = f"{work}/texts/{name}"
    ours = expanding(f"{text}.text", comes == "expands")
    plain = instructions(f"{text}.plain", "read") - none
    with open(f"{text}.text") as file:
        size = len(file.read())
    print(f"{name:18} {size:7} {ours:13} {plain:13} {ours / plain:6.2f}  {like}", flush=True)
print("instructions of one use, beside so many items or variables:")
for name in ("item-of", "length-of", "last-variable-of"):
    each = []
    for many in (1_000, 2_000, 4_000):
        text = f"{work}/texts/{name}-{many}"
        each.append((expanding(f"{text}.uses") - expanding(f"{text}.none")) // 1_000)
    print(f"{name:18} " + " ".join(f"{one:11}" for one in each), flush=True)
print("instructions of one turn that names an item of the parameter that the loop goes over, of so many turns:")
each = []
for many in (1_000, 2_000, 4_000):
    text = f"{work}/texts/item-in-turns-of-{many}"
    each.append((expanding(f"{text}.uses") - expanding(f"{text}.none")) // many)
print(f"{'item-in-turns-of':18} " + " ".join(f"{one:11}" for one in each), flush=True)
PYTHON
