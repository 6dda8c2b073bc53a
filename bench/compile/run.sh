#!/bin/sh
# Counts by callgrind the instructions of the whole process `pipectl compile` over bundles, and those of a whole process that
# reads the same files with `pl_yaml::read` and does nothing else, and prints both with their ratio, the status, and the most
# memory that `compile` held, in KiB. Needs valgrind and python3 beside the kit. Both programs are proved before they are built:
# where none of the crates is proved that takes an hour and more, and else some minutes. Not a part of the gate.
set -e
here=$(cd "$(dirname "$0")" && pwd)
top=$(cd "$here/../.." && pwd)
command -v valgrind >/dev/null || { echo "valgrind is needed: apt-get install valgrind" >&2; exit 1; }
work=$(mktemp -d)
trap 'rm -rf "$work"' EXIT
mkdir -p "$work/crates/calls/src" "$work/texts"
for crate in $("$top/tools/below" pl_expand); do
    cp -r "$top/crates/$crate" "$work/crates/"
    grep "^$crate[: ]" "$top/crates.txt" >>"$work/crates.txt"
done
echo "calls: pl_base pl_expand" >>"$work/crates.txt"
cp "$top/HANDLES" "$work/"
# the program that reads is that of the bench of calls
cp "$top/bench/calls/calls.rt.in" "$work/crates/calls/src/main.rt"
(cd "$work/crates/calls" && echo 'a: b' | rt run -- read >"$work/log" 2>&1) || { cat "$work/log" >&2; exit 1; }
(cd "$top/crates/pipectl" && rt run -- compile </dev/null >"$work/log" 2>&1) || true
(cd "$top" && tools/bundle app refs/heads/main examples/shop/app ci.yml platform/templates refs/heads/main examples/shop/templates) >"$work/shop.bundle"
python3 "$here/texts.py" "$work/texts" "$work/shop.bundle" >"$work/list"
python3 - "$work/crates/calls/out/calls" "$top/crates/pipectl/out/pipectl" "$work" <<'PYTHON'
import re
import resource
import subprocess
import sys

reader, program, work = sys.argv[1:]


def instructions(text, words):
    """The instructions of a whole process over a text."""
    command = ["valgrind", "--tool=callgrind", "--callgrind-out-file=/dev/null", *words]
    with open(text, "rb") as file:
        done = subprocess.run(command, stdin=file, capture_output=True)
    return int(re.search(r"Collected : (\d+)", done.stderr.decode()).group(1)), done.returncode


def memory(text):
    """The most memory that compiling a text holds, in KiB."""
    code = f"import resource, subprocess, sys; subprocess.run([{program!r}, 'compile'], stdin=open({text!r}, 'rb'), stdout=subprocess.DEVNULL); print(resource.getrusage(resource.RUSAGE_CHILDREN).ru_maxrss)"
    return int(subprocess.run([sys.executable, "-c", code], capture_output=True, check=True).stdout)


print(f"{'text':24} {'bytes':>8} {'compile':>12} {'read':>12} {'ratio':>6} {'status':>6} {'memory':>7}")
with open(f"{work}/list") as names:
    rows = names.read().split()
for name in rows:
    bundle, files = f"{work}/texts/{name}.bundle", f"{work}/texts/{name}.files"
    ours, status = instructions(bundle, [program, "compile"])
    reading, _ = instructions(files, [reader, "read"])
    with open(bundle, "rb") as file:
        size = len(file.read())
    print(f"{name:24} {size:8} {ours:12} {reading:12} {ours / reading:6.2f} {status:6} {memory(bundle):7}", flush=True)
PYTHON
