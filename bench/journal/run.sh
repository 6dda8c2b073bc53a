#!/bin/sh
# Counts by callgrind the instructions of a line of each look-up of `pl_journal`, `pl_open_runs` and `pl_views`, of putting the
# facts of a run behind the others and of taking them away again, with 100 open runs alone and with 100,000 ended ones of three
# stages besides, and prints both; and the memory that a fact takes at most, beside that of the script and the
# answers. It plays scripts by the proved program of cases `cases_journal`, which is proved first (`tools/beside`).
# Needs valgrind and python3. Not a part of the gate.
set -e
here=$(cd "$(dirname "$0")" && pwd)
top=$(cd "$here/../.." && pwd)
command -v valgrind >/dev/null || { echo "valgrind is needed: apt-get install valgrind" >&2; exit 1; }
work=$(mktemp -d)
trap 'rm -rf "$work"' EXIT
"$top/tools/beside" --keep "$work/beside" cases_journal >"$work/log" 2>&1 || { cat "$work/log" >&2; exit 1; }
python3 "$here/measure.py" "$work/beside"
