#!/bin/sh
# Tries `pl_sqlkeeper` and `pl_store`; the words say what. `disks`: over disks in memory, by a proved program: rows beside those
# of a keeper in memory, databases that are refused, failures from a call on, a stop at each call of each file; `memory`, by the
# same program: each call for memory of an opening and two entries refused alone (`refused.py`). By a build that isn't proved (`rt
# try`): `blips`, a failed call on each of a log's first calls alone. `real`: over real files, by a proved program as LLVM builds it
# (`real.py`): what is taken and refused, two programs on one store, a full disk (as root), 200 children that are killed; `costs`:
# commits and an opening beside Python's sqlite3. `program`: `pipectl` itself over real files (`program.py`), which PIPECTL names. With
# no word: `disks memory blips real costs`. DISKS and KEEPS name programs that were built before. Ends with 0 where all held. Needs
# python3 with sqlite3, and cc. Not a part of the gate.
here=$(cd "$(dirname "$0")" && pwd)
top=$(cd "$here/../.." && pwd)
work=$(mktemp -d)
trap 'rm -rf "$work"' EXIT
chmod 755 "$work"

# A small repository of the crates below, with proofs and what was proved of them, and one program.
lay() {
    mkdir -p "$work/crates/$1/src"
    : >"$work/crates.txt"
    for crate in $("$top/tools/below" pl_store); do
        [ -d "$work/crates/$crate" ] || cp -r "$top/crates/$crate" "$work/crates/"
        grep "^$crate[: ]" "$top/crates.txt" >>"$work/crates.txt"
    done
    echo "$1: pl_base pl_keeper pl_sqlkeeper pl_store sqlite sqlite_disk" >>"$work/crates.txt"
    cp "$here/$1.rt.in" "$work/crates/$1/src/main.rt"
    cp "$top/HANDLES" "$work/"
    cd "$work/crates/$1" || exit 2
}

# A proved program, built once, or one that was built before (the first word); what it is run with at first.
built() {
    before=$1
    shift
    [ -z "$before" ] || [ -x "$work/crates/$1/out/$1" ] || { mkdir -p "$work/crates/$1/out" && cp "$before" "$work/crates/$1/out/$1"; }
    [ ! -x "$work/crates/$1/out/$1" ] || return 0
    lay "$@"
    shift
    ${RT:-rt} run -- "$@" </dev/null >"$work/log" 2>&1
    [ -x "out/$(basename "$PWD")" ] || { tail -n 20 "$work/log" >&2; exit 1; }
}

all=0
for what in ${*:-disks memory blips real costs}; do
    case $what in
    disks)
        built "$DISKS" disks
        "$work/crates/disks/out/disks" rows refusals faults stops >"$work/log" || all=1
        cat "$work/log"
        ! grep -q -v -E ': (held|[0-9]+ calls of the log.*)$' "$work/log" || all=1
        ;;
    blips)
        lay blips
        rt try --seconds 3600 --steps 1000 >"$work/log" 2>&1
        grep -q '^run=ended status=0' "$work/log" && echo 'blips: held' || { all=1; tail -n 20 "$work/log" >&2; }
        ;;
    memory)
        built "$DISKS" disks
        python3 -B "$here/refused.py" "$work/crates/disks/out/disks" || all=1
        ;;
    real)
        built "$KEEPS" keeps nothing/rows.db count
        (cd "$work" && python3 -B "$here/real.py" "$work/crates/keeps/out/keeps" refusals two full kills) || all=1
        ;;
    costs)
        built "$KEEPS" keeps nothing/rows.db count
        (cd "$work" && python3 -B "$here/real.py" "$work/crates/keeps/out/keeps" costs) || all=1
        ;;
    program)
        (cd "$work" && python3 -B "$here/program.py" "${PIPECTL:-$top/crates/pipectl/out/pipectl}" rows two refusals kills full memory costs) || all=1
        ;;
    *)
        sed -n '2,11s/^# //p' "$0" >&2
        exit 64
        ;;
    esac
done
exit $all
