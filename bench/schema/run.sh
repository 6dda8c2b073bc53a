#!/bin/sh
# Counts by callgrind the instructions of `pl_schema::pipeline_of` for 64 stages, 256 jobs and 2,000 steps with 20 inputs
# each, those of reading the text, and their ratio. Needs valgrind. Not a part of the gate.
set -e
here=$(cd "$(dirname "$0")" && pwd)
top=$(cd "$here/../.." && pwd)
work=$(mktemp -d)
trap 'rm -rf "$work"' EXIT
mkdir -p "$work/crates/pipeline/src"
for crate in $("$top/tools/below" pl_schema pl_yaml); do
    cp -r "$top/crates/$crate" "$work/crates/"
    grep "^$crate[: ]" "$top/crates.txt" >>"$work/crates.txt"
done
echo "pipeline: pl_base pl_literal pl_schema pl_yaml" >>"$work/crates.txt"
cp "$here/pipeline.rt.in" "$work/crates/pipeline/src/main.rt"
cp "$top/HANDLES" "$work/"
python3 "$here/text.py" >"$work/text"
(cd "$work/crates/pipeline" && rt run -- read <"$work/text" >"$work/log" 2>&1) || { cat "$work/log" >&2; exit 1; }
count() {
    valgrind --tool=callgrind --callgrind-out-file=/dev/null "$work/crates/pipeline/out/pipeline" "$1" <"$work/text" 2>&1 |
        sed -n 's/.*Collected : \([0-9]*\).*/\1/p'
}
read=$(count read)
literal=$(count literal)
pipeline=$(count pipeline)
echo "$(wc -c <"$work/text") bytes: read $read, pipeline_of $((pipeline - literal)) instructions"
python3 -c "print(f'ratio {($pipeline - $literal) / $read:.2f}')"
