#!/bin/sh
# Turns a second of `pl_turn::TurnLock` beside std's `Mutex` on the same work, at one, two and four threads, with empty turns
# and with 20 microseconds of work in each. Fails where a note is missing or out of a seat's order. Not a part of the gate.
set -e
here=$(cd "$(dirname "$0")" && pwd)
top=$(cd "$here/../.." && pwd)
work=$(mktemp -d)
trap 'rm -rf "$work"' EXIT
mkdir -p "$work/repository/crates/turns/src" "$work/repository/crates/turns/proofs"
for crate in pl_base pl_turn; do cp -r "$top/crates/$crate" "$work/repository/crates/"; done
grep -E '^(pl_base|pl_turn)( [^:]*)?:' "$top/crates.txt" >"$work/repository/crates.txt"
echo "turns: pl_base pl_turn" >>"$work/repository/crates.txt"
cp "$here/turns.rt.in" "$work/repository/crates/turns/src/main.rt"
cp "$top/HANDLES" "$work/repository/"
for loop in leave_all split_all join_all; do
    mkdir "$work/repository/crates/turns/proofs/$loop"
    sed 's/pl_service_tests\.proofs\.tests\.turns\./turns.proofs./' "$top/crates/pl_service_tests/proofs/tests/turns/$loop/Invariants.antt" \
        >"$work/repository/crates/turns/proofs/$loop/Invariants.antt"
done
(cd "$work/repository/crates/turns" && rt run </dev/null >"$work/log" 2>&1) || { cat "$work/log" >&2; exit 1; }
uptime
for turn in 1 2 3; do "$work/repository/crates/turns/out/turns"; done
