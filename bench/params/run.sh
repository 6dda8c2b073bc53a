#!/bin/sh
# Counts by callgrind the instructions that binding takes for 100 declared parameters with 100 arguments and for 1,000 with
# 1,000, and prints both with their ratio; those of declaring are taken off. Needs valgrind. Not a part of the gate.
set -e
here=$(cd "$(dirname "$0")" && pwd)
top=$(cd "$here/../.." && pwd)
work=$(mktemp -d)
trap 'rm -rf "$work"' EXIT
mkdir -p "$work/crates/binds/src"
for crate in $("$top/tools/below" pl_params); do
    cp -r "$top/crates/$crate" "$work/crates/"
    grep "^$crate[: ]" "$top/crates.txt" >>"$work/crates.txt"
done
echo "binds: pl_base pl_literal pl_params" >>"$work/crates.txt"
cp "$here/binds.rt.in" "$work/crates/binds/src/main.rt"
cp "$top/HANDLES" "$work/"
(cd "$work/crates/binds" && rt run -- bind </dev/null >"$work/log" 2>&1) || { cat "$work/log" >&2; exit 1; }
count() {
    valgrind --tool=callgrind --callgrind-out-file=/dev/null "$work/crates/binds/out/binds" "$1" <"$2" 2>&1 |
        sed -n 's/.*Collected : \([0-9]*\).*/\1/p'
}
for names in 100 1000; do
    seq -f 'parameter%05.0f' "$names" >"$work/$names"
    binding=$(($(count bind "$work/$names") - $(count declare "$work/$names")))
    echo "$names parameters: $binding instructions"
    [ "$names" = 100 ] && few=$binding
done
python3 -c "print(f'ratio {$binding/$few:.2f}')"
