#!/bin/sh
# Calls a second of one, two and four clerks of one hall, each in a thread of its own, and how often one clerk's rate that is: draws
# that change nothing, and queues of the example (examples/shop), of which 400 are queued in all; and the same beside 10,000 files: what
# a snapshot of the files takes is in the difference of one clerk's queues. Needs python3 beside the kit. The program is proved before
# it is built, or its path is the word behind. Not a part of the gate.
set -e
here=$(cd "$(dirname "$0")" && pwd)
top=$(cd "$here/../.." && pwd)
work=$(mktemp -d)
trap 'rm -rf "$work"' EXIT
rates=$1
if [ -z "$rates" ]; then
    mkdir -p "$work/crates/hall_rates/src" "$work/crates/hall_rates/proofs/seats_of"
    for crate in $("$top/tools/below" pl_hall); do
        cp -r "$top/crates/$crate" "$work/crates/"
        grep "^$crate[: ]" "$top/crates.txt" >>"$work/crates.txt"
    done
    echo "hall_rates: pl_base pl_digests pl_keeper pl_core pl_wire pl_turn pl_sessions pl_service pl_hall" >>"$work/crates.txt"
    cp "$top/HANDLES" "$work/"
    cp "$here/hall.rt.in" "$work/crates/hall_rates/src/main.rt"
    cp "$here/seats_of.antt.in" "$work/crates/hall_rates/proofs/seats_of/Invariants.antt"
    rates=$work/crates/hall_rates/out/hall_rates
    (cd "$work/crates/hall_rates" && rt run </dev/null >"$work/log" 2>&1) || [ -x "$rates" ] || { cat "$work/log" >&2; exit 1; }
fi
uptime
# What is there before the first run is queued.
sed '/^POST \/runs /,$d' "$top/examples/day.http" >"$work/before"
"$rates" <"$work/before"
python3 "$here/files.py" 10000 | cat "$work/before" - >"$work/many"
echo "beside 10,000 files:"
"$rates" <"$work/many"
