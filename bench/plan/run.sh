#!/bin/sh
# Counts by callgrind the instructions of `pl_plan::plan_of` and of `pl_plan_report::plan_text` for four pipelines
# (text.py), those of reading their texts, and their ratios. Needs valgrind. Not a part of the gate.
set -e
here=$(cd "$(dirname "$0")" && pwd)
top=$(cd "$here/../.." && pwd)
work=$(mktemp -d)
trap 'rm -rf "$work"' EXIT
mkdir -p "$work/crates/plan/src"
for crate in $("$top/tools/below" pl_plan_report pl_yaml); do
    cp -r "$top/crates/$crate" "$work/crates/"
    grep "^$crate[: ]" "$top/crates.txt" >>"$work/crates.txt"
done
echo "plan: pl_base pl_literal pl_schema pl_plan pl_plan_report pl_yaml" >>"$work/crates.txt"
cp "$here/plan.rt.in" "$work/crates/plan/src/main.rt"
cp "$top/HANDLES" "$work/"
python3 "$here/text.py" steps >"$work/text"
(cd "$work/crates/plan" && rt run -- read <"$work/text" >"$work/log" 2>&1) || { cat "$work/log" >&2; exit 1; }
count() {
    valgrind --tool=callgrind --callgrind-out-file=/dev/null "$work/crates/plan/out/plan" "$1" <"$work/text" 2>&1 |
        sed -n 's/.*Collected : \([0-9]*\).*/\1/p'
}
for name in steps stages jobs legs; do
    python3 "$here/text.py" "$name" >"$work/text"
    read=$(count read)
    pipeline=$(count pipeline)
    plan=$(count plan)
    told=$(count text)
    echo "$name: $(wc -c <"$work/text") bytes: read $read, plan_of $((plan - pipeline)), plan_text $((told - plan)) instructions"
    python3 -c "print(f'ratios {($plan - $pipeline) / $read:.2f}, {($told - $plan) / $read:.2f}')"
done
