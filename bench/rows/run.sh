#!/bin/sh
# Counts, by callgrind, the instructions of `pl_keeper::decode` and `encode` on rows of runs with many files, and
# prints them for each byte of the row; and, by memcheck, the blocks and the bytes of memory that each takes.
# Those of a program that only reads the row's bytes are taken off, and those of its words, which are what it
# takes of no bytes (no row). Needs valgrind and python3. Not a part of the gate.
#
#     bench/rows/run.sh
#     bench/rows/run.sh opens [PROGRAM [RUNS..]]
#
# With `opens` it counts what opening a service of the rows of so many ended runs of the example takes (100, 1,000 and 10,000), beside
# decoding these rows and one compile, what the rows of its state take beside writing the records, and the most memory (opens.py).
# PROGRAM is opens.rt.in as it was built before.
set -e
here=$(cd "$(dirname "$0")" && pwd)
top=$(cd "$here/../.." && pwd)
work=$(mktemp -d)
trap 'rm -rf "$work"' EXIT
# builds a program: its name, its source and its libraries
build() {
    mkdir -p "$work/crates/$1/src"
    for crate in $("$top/tools/below" $3); do
        cp -r "$top/crates/$crate" "$work/crates/"
        grep "^$crate[: ]" "$top/crates.txt" >>"$work/crates.txt"
    done
    echo "$1: $3" >>"$work/crates.txt"
    cp "$here/$2" "$work/crates/$1/src/main.rt"
    cp "$top/HANDLES" "$work/"
    (cd "$work/crates/$1" && rt run </dev/null >"$work/log" 2>&1) || [ -x "$work/crates/$1/out/$1" ] || { cat "$work/log" >&2; exit 1; }
}
if [ "$1" = opens ]; then
    shift
    program=$1
    [ $# -eq 0 ] || shift
    [ -n "$program" ] || { build opens opens.rt.in 'pl_base pl_compile pl_keeper pl_opening'; program=$work/crates/opens/out/opens; }
    python3 "$here/opens.py" "$program" "$top" "$@"
    exit
fi
build rows rows.rt.in 'pl_base pl_keeper'
python3 - "$work/crates/rows/out/rows" "$work" <<'PYTHON'
import re, struct, subprocess, sys
program, work = sys.argv[1:]

def number(n): return struct.pack(">Q", n)
def text(b): return struct.pack(">I", len(b)) + b
def key(n): return text(b"app") + text(b"refs/heads/main") + text(b"/%06d.yml" % n)
def items(list): return struct.pack(">I", len(list)) + b"".join(list)

def body(files, size):
    kept = [key(n) + text(b"a" * size) for n in range(files)]
    return text(b"ci") + text(b"ann") + number(1704067200) + key(0) + items([]) + items(kept) + b"\0"

def instructions(row, words):
    out = f"{work}/callgrind"
    told = subprocess.run(["valgrind", "--tool=callgrind", f"--callgrind-out-file={out}", program, *words],
                          input=row, capture_output=True).stderr.decode()
    return int(re.search(r"Collected : (\d+)", told).group(1))

def memory(row, words):
    told = subprocess.run(["valgrind", program, *words], input=row, capture_output=True).stderr.decode()
    blocks, taken = re.search(r"total heap usage: ([\d,]+) allocs, [\d,]+ frees, ([\d,]+) bytes", told).groups()
    return int(blocks.replace(",", "")), int(taken.replace(",", ""))

def taken(row):
    counts = [(instructions(row, words), *memory(row, words)) for words in ([], ["read"], ["read", "write"])]
    return [[b - a for a, b in zip(*pair)] for pair in zip(counts, counts[1:])]

words = taken(b"")
for files, size in ((250, 1000), (500, 1000), (1000, 1000), (2000, 1000), (2000, 0), (2000, 100), (2000, 10000)):
    row = body(files, size)
    read, written = ([a - b for a, b in zip(*pair)] for pair in zip(taken(row), words))
    print(f"{files} files of {size} bytes, a row of {len(row)}: read {read[0] / len(row):.1f} instructions a byte, "
          f"{read[1]} blocks, {read[2]} bytes; written {written[0] / len(row):.2f}, {written[1]} blocks, {written[2]} bytes")
PYTHON
