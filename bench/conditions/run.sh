#!/bin/sh
# Counts by callgrind the instructions of `pl_cond::stage_condition` and `job_condition` for conditions that read one output,
# and for one that reads all outputs of a stage (text.py), where each of 256 jobs has one output and where each has 100, and
# their ratios. Needs valgrind. Not a part of the gate.
set -e
here=$(cd "$(dirname "$0")" && pwd)
top=$(cd "$here/../.." && pwd)
work=$(mktemp -d)
trap 'rm -rf "$work"' EXIT
mkdir -p "$work/crates/conditions/src"
for crate in $("$top/tools/below" pl_cond pl_yaml); do
    cp -r "$top/crates/$crate" "$work/crates/"
    grep "^$crate[: ]" "$top/crates.txt" >>"$work/crates.txt"
done
echo "conditions: pl_base pl_literal pl_schema pl_plan pl_yaml pl_results pl_cond" >>"$work/crates.txt"
cp "$here/conditions.rt.in" "$work/crates/conditions/src/main.rt"
cp "$top/HANDLES" "$work/"
python3 "$here/text.py" even >"$work/text"
(cd "$work/crates/conditions" && rt run -- 1.stage <"$work/text" >"$work/log" 2>&1) || { cat "$work/log" >&2; exit 1; }
count() {
    valgrind --tool=callgrind --callgrind-out-file=/dev/null --toggle-collect=pl_cond::conditions::holds \
        "$work/crates/conditions/out/conditions" "$1" <"$work/text" 2>&1 | sed -n 's/.*Collected : \([0-9]*\).*/\1/p'
}
for name in even wide job whole; do
    python3 "$here/text.py" "$name" >"$work/text"
    what=stage
    if [ "$name" = job ]; then what=job; fi
    one=$(count 1.$what)
    many=$(count 100.$what)
    echo "$name: $one instructions with one output a job, $many with 100"
    python3 -c "print(f'ratio {$many / $one:.2f}')"
done
