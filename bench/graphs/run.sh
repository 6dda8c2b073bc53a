#!/bin/sh
# Counts by callgrind the instructions that `pl_graph::order` and `ancestors` take together for
# graphs of 16,000 nodes, those of making the edges left in, and measures the most memory that a
# run takes. Needs valgrind and GNU time. Not a part of the gate.
set -e
here=$(cd "$(dirname "$0")" && pwd)
top=$(cd "$here/../.." && pwd)
work=$(mktemp -d)
trap 'rm -rf "$work"' EXIT
mkdir -p "$work/crates/graphs/src"
for crate in pl_base pl_graph; do
    cp -r "$top/crates/$crate" "$work/crates/"
    grep "^$crate[: ]" "$top/crates.txt" >>"$work/crates.txt"
done
echo "graphs: pl_base pl_graph" >>"$work/crates.txt"
cp "$here/graphs.rt.in" "$work/crates/graphs/src/main.rt"
cp "$top/HANDLES" "$work/"
(cd "$work/crates/graphs" && rt run -- none >"$work/log" 2>&1) || { cat "$work/log" >&2; exit 1; }
program=$work/crates/graphs/out/graphs
for name in none chain fan ring wide; do
    valgrind --tool=callgrind --callgrind-out-file=/dev/null "$program" "$name" >"$work/log" 2>&1
    count=$(sed -n 's/.*Collected : \([0-9]*\).*/\1/p' "$work/log")
    memory=$(/usr/bin/time -f %M "$program" "$name" 2>&1)
    echo "$name: $count instructions, $memory KB"
done
