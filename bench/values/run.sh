#!/bin/sh
# What values of templates cost, in the program as LLVM builds it: the least stack (in steps of 32 KiB) within which a value
# of the greatest depth is made, copied, compared, printed and dropped, and the memory that 100,000 nodes of 100 crossings
# each take. Not a part of the gate.
set -e
here=$(cd "$(dirname "$0")" && pwd)
top=$(cd "$here/../.." && pwd)
work=$(mktemp -d)
trap 'rm -rf "$work"' EXIT
mkdir -p "$work/crates/values/src"
for crate in pl_base pl_literal; do cp -r "$top/crates/$crate" "$work/crates/"; done
grep -E '^(pl_base|pl_literal):' "$top/crates.txt" >"$work/crates.txt"
echo "values: pl_base pl_literal" >>"$work/crates.txt"
cp "$here/values.rt.in" "$work/crates/values/src/main.rt"
cp "$top/HANDLES" "$work/"
(cd "$work/crates/values" && rt run -- wide >"$work/log" 2>&1) || { cat "$work/log" >&2; exit 1; }
program=$work/crates/values/out/values
stack=32
while ! (ulimit -s $stack && "$program" deep) 2>/dev/null; do
    stack=$((stack + 32))
    [ $stack -gt 65536 ] && { echo "no stack is enough" >&2; exit 1; }
done
echo "stack for the greatest depth: $stack KiB"
python3 - "$program" <<'PYTHON'
import resource, subprocess, sys
subprocess.run([sys.argv[1], "wide"], check=True)
print(f"100,000 nodes of 100 crossings: {resource.getrusage(resource.RUSAGE_CHILDREN).ru_maxrss / 1000:.1f} MB")
PYTHON
