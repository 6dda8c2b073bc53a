#!/bin/sh
# Counts by callgrind what requests cost in `pipectl replay`, and prints the counts and their ratios: a put of a file after puts of
# the same or of many; queueing a text, and what of it compiles; reading a run of 256 jobs, beside reading its message and
# spelling its reply; a draw with 100 open runs, of which all jobs are taken or all stages wait for an approval, and beside ended
# runs. Only the requests themselves are counted, some equal ones behind messages that aren't. The first word is how many ended
# runs stand beside (1,000 where there is none; 0 leaves them out; 100,000 take half an hour), the second the program; without it
# the program is proved and built first. Needs valgrind and python3. Not a part of the gate.
set -e
here=$(cd "$(dirname "$0")" && pwd)
top=$(cd "$here/../.." && pwd)
command -v valgrind >/dev/null || { echo "valgrind is needed: apt-get install valgrind" >&2; exit 1; }
program=${2:-$top/crates/pipectl/out/pipectl}
[ -n "$2" ] || "$top/tools/prove"
python3 "$here/measure.py" "$program" "${1:-1000}"
