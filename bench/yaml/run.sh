#!/bin/sh
# Counts the instructions of `pl_yaml::read` and of libyaml's event parser on the same texts, by callgrind, and prints both with
# their ratio, as the table of docs/PROOFS.md; the count of an empty text is taken off. Behind them stand the milliseconds of
# processor time of the whole program over `read`, a mean of ten runs.
#
#     bench/yaml/run.sh [PROGRAM]
#
# PROGRAM is read.rt.in as it was built before. With none it is built here, which proves the crates below it where no check on this
# machine kept their proofs (some twenty processor minutes). Needs Debian's libyaml-dev, valgrind, gcc and python3, and rt. Not a
# part of the gate.
set -e
here=$(cd "$(dirname "$0")" && pwd)
top=$(cd "$here/../.." && pwd)
for tool in valgrind gcc python3; do
    command -v "$tool" >/dev/null || { echo "$0: $tool is missing: apt-get install libyaml-dev valgrind gcc python3" >&2; exit 1; }
done
work=$(mktemp -d)
trap 'rm -rf "$work"' EXIT
mkdir "$work/texts"
python3 "$here/texts.py" "$work/texts"
gcc -O2 -o "$work/events" "$here/events.c" -lyaml
if [ $# -gt 0 ]; then
    ours=$(cd "$(dirname "$1")" && pwd)/$(basename "$1")
else
    mkdir -p "$work/repository/crates/yaml_read/src"
    for crate in $("$top/tools/below" pl_yaml); do
        mkdir "$work/repository/crates/$crate"
        (cd "$top/crates/$crate" && cp -r src specs proofs "$work/repository/crates/$crate/" 2>/dev/null) || true
    done
    for crate in $("$top/tools/below" pl_yaml); do grep "^$crate[: ]" "$top/crates.txt"; done >"$work/repository/crates.txt"
    echo "yaml_read: pl_base pl_yaml" >>"$work/repository/crates.txt"
    cp "$here/read.rt.in" "$work/repository/crates/yaml_read/src/main.rt"
    cp "$top/HANDLES" "$work/repository/"
    (cd "$work/repository/crates/yaml_read" && rt run </dev/null >"$work/log" 2>&1) || { cat "$work/log" >&2; exit 1; }
    ours=$work/repository/crates/yaml_read/out/yaml_read
fi
count() {
    valgrind --tool=callgrind --callgrind-out-file=/dev/null "$1" <"$2" 2>&1 | sed -n 's/.*Collected : \([0-9]*\).*/\1/p'
}
milliseconds() {
    python3 - "$1" "$2" <<'PYTHON'
import resource, subprocess, sys
program, text = sys.argv[1:]
runs = 10
before = resource.getrusage(resource.RUSAGE_CHILDREN)
for _ in range(runs):
    with open(text, "rb") as file:
        subprocess.run([program], stdin=file, check=True)
after = resource.getrusage(resource.RUSAGE_CHILDREN)
print(f"{(after.ru_utime + after.ru_stime - before.ru_utime - before.ru_stime) * 1000 / runs:.0f}")
PYTHON
}
ours_empty=$(count "$ours" "$work/texts/empty")
theirs_empty=$(count "$work/events" "$work/texts/empty")
echo '| Text | Bytes | Instructions of `read` | of libyaml | Ratio | ms |'
echo '|---|---|---|---|---|---|'
while IFS='|' read -r name title; do
    text=$work/texts/$name
    a=$(($(count "$ours" "$text") - ours_empty))
    b=$(($(count "$work/events" "$text") - theirs_empty))
    python3 - "$title" "$(wc -c <"$text")" "$a" "$b" "$(milliseconds "$ours" "$text")" <<'PYTHON'
import sys
title, size, ours, theirs, milliseconds = sys.argv[1:]
size, ours, theirs = int(size), int(ours), int(theirs)
print(f"| {title} | {size:,} | {ours:,} | {theirs:,} | {ours / theirs:.2f} | {milliseconds} |")
PYTHON
done <"$work/texts/titles"
