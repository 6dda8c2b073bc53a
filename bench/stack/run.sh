#!/bin/sh
# How much stack each recursion needs, in programs as LLVM builds them:
# - for each text the least of 8, 12, 16, 24, .. KiB within which `pl_yaml::read`, `pl_expr::parse` and `pl_eval::eval` end well for
#   their deepest inputs; of that the start of a program without a text takes a part, which is measured too;
# - what a value of as many nodes in one another as there may be takes where it is dropped, copied, compared, printed, counted and moved
#   across a border, and how many bytes each node more takes (depths.rt.in);
# - what `pipectl compile` takes for a node more that is open, by the kind of node, and for a call more, and for the deepest inputs.
# Not a part of the gate.
#
#     bench/stack/run.sh [READ EVALUATE DEPTHS PIPECTL]
#
# READ is bench/yaml/read.rt.in as it was built before, EVALUATE is evaluate.rt.in, DEPTHS depths.rt.in, and PIPECTL the program. Without
# them they are built here, which proves the crates below them where no check on this machine kept their proofs. Needs rt and python3.
set -e
here=$(cd "$(dirname "$0")" && pwd)
top=$(cd "$here/../.." && pwd)
work=$(mktemp -d)
trap 'rm -rf "$work"' EXIT
# builds a program: its name, its source and its libraries
build() {
    mkdir -p "$work/$1/crates/$1/src"
    cp "$2" "$work/$1/crates/$1/src/main.rt"
    cp "$top/HANDLES" "$work/$1/"
    for crate in $("$top/tools/below" $3); do
        mkdir "$work/$1/crates/$crate"
        for part in src specs proofs; do
            [ -d "$top/crates/$crate/$part" ] && cp -r "$top/crates/$crate/$part" "$work/$1/crates/$crate/"
        done
        grep "^$crate:" "$top/crates.txt" >>"$work/$1/crates.txt"
    done
    echo "$1: $3" >>"$work/$1/crates.txt"
    (cd "$work/$1/crates/$1" && rt run </dev/null >"$work/log" 2>&1) || grep -q '^linked' "$work/log" || { cat "$work/log" >&2; exit 1; }
}
if [ $# -eq 4 ]; then
    read=$1 evaluate=$2 depths=$3 pipectl=$4
else
    build yaml_read "$here/../yaml/read.rt.in" 'pl_base pl_yaml'
    build evaluate "$here/evaluate.rt.in" 'pl_base pl_expr pl_frame'
    build depths "$here/depths.rt.in" 'pl_base pl_expr pl_literal pl_frame'
    "$top/tools/prove" >&2
    read=$work/yaml_read/crates/yaml_read/out/yaml_read
    evaluate=$work/evaluate/crates/evaluate/out/evaluate
    depths=$work/depths/crates/depths/out/depths
    pipectl=$top/crates/pipectl/out/pipectl
fi
PYTHONDONTWRITEBYTECODE=1 PYTHONPATH=$here/../hostile exec python3 "$here/stacks.py" "$read" "$evaluate" "$depths" "$pipectl"
