#!/bin/sh
# Counts by callgrind what reading one message of 262,144 bytes of content costs in `pipectl replay`: `pl_wire::asked`, which is
# all behind the head; of it the copy of a put's content (by how the count grows with the content), and for bodies of JSON what
# `serde_json`'s own reading of them takes in a small proved program (reads.rt.in), and letting its value go besides: a run with
# long parameters, one with short ones, capabilities, approvers by their numbers, approvers in any order, patterns, names of
# pipelines, roles, templates, and many checks of each kind; names of characters of two bytes, short and long, names of each
# length, and paths of short segments; and of a get what one more of them takes in all, of a file of 131,072 and of 262,144
# bytes. `asked` lets go of the tree that it reads, and makes and judges the request: its count is told beside `serde_json`'s
# reading alone (bare), and beside that reading with the letting go of what was read (whole). Prints the counts and their ratios.
# Needs valgrind and python3, and proves the program first where it isn't proved. Not a part of the gate.
set -e
top=$(cd "$(dirname "$0")/../.." && pwd)
program=${1:-$top/crates/pipectl/out/pipectl}
[ -n "$1" ] || "$top/tools/prove"
work=$(mktemp -d)
trap 'rm -rf "$work"' EXIT
mkdir -p "$work/crates/reads/src"
echo "reads: serde_json" >"$work/crates.txt"
cp "$top/bench/wire/reads.rt.in" "$work/crates/reads/src/main.rt"
cp "$top/HANDLES" "$work/"
(cd "$work/crates/reads" && rt run </dev/null >"$work/log" 2>&1) || true
[ -x "$work/crates/reads/out/reads" ] || { cat "$work/log" >&2; exit 1; }
python3 - "$program" "$work/crates/reads/out/reads" <<'PYTHON'
import json, re, subprocess, sys, tempfile

program, reads = sys.argv[1:]
admin = "ba7816bf8f01cfea414140de5dae2223b00361a396177a9cb410ff61f20015ad"
most = 262144


def instructions(data, within, of):
    """Returns the instructions inside the function `within`, and those of `of` that it called."""
    with tempfile.NamedTemporaryFile() as out:
        command = ["valgrind", "--tool=callgrind", f"--callgrind-out-file={out.name}", f"--toggle-collect={within}"]
        subprocess.run([*command, program, "replay", "--admin", admin], input=data, stdout=subprocess.DEVNULL, stderr=subprocess.DEVNULL)
        told = subprocess.run(["callgrind_annotate", "--inclusive=yes", "--threshold=100", out.name], capture_output=True, text=True).stdout
    found = {name: int(count.replace(",", "")) for count, name in re.findall(r"^ *([\d,]+) .*:((?:pl_|serde_)\S+)", told, re.M)}
    return found[within], found.get(of, 0)


def read_alone(content):
    """Returns the instructions of `serde_json`'s reading of a content, and those of letting its value go."""
    found = []
    for within in ("reads::reading", "reads::letting_go"):
        with tempfile.NamedTemporaryFile() as out:
            command = ["valgrind", "--tool=callgrind", f"--callgrind-out-file={out.name}", f"--toggle-collect={within}", reads]
            told = subprocess.run(command, input=content, stdout=subprocess.DEVNULL, stderr=subprocess.PIPE).stderr.decode()
        found.append(int(re.search(r"Collected : (\d+)", told)[1]))
    return found


def message(front, content):
    return f"{front} HTTP/1.1\r\nAuthorization: Bearer abc\r\nContent-Length: {len(content)}\r\n\r\n".encode() + content


def text(value):
    return json.dumps(value, ensure_ascii=False).encode()


def all_of(data):
    """Returns the instructions of the whole program."""
    command = ["valgrind", "--tool=callgrind", "--callgrind-out-file=/dev/null", program, "replay", "--admin", admin]
    told = subprocess.run(command, input=data, stdout=subprocess.DEVNULL, stderr=subprocess.PIPE).stderr.decode()
    return int(re.search(r"Collected : (\d+)", told)[1])


def filled(make):
    count = 1
    while len(text(make(2 * count))) <= most:
        count *= 2
    step = count
    while step:
        if len(text(make(count + step))) <= most:
            count += step
        step //= 2
    return text(make(count))


names = subprocess.run(["nm", program], capture_output=True, text=True).stdout
# a build may put `asked` into its caller, which hashes the token besides
asked = "pl_wire::asked::asked" if " pl_wire::asked::asked\n" in names else "pl_wire::next::message_of"
head = "pl_heads::front::read_head"
put = [message("PUT /files/app/refs%2Fheads%2Fmain/%2Fci.yml", b"x" * size) for size in (most // 2, most)]
half, whole = (instructions(data, asked, asked)[0] for data in put)
heads = instructions(put[1], head, head)[0]
copy = 2 * (whole - half)
print(f"a put: {heads + whole} instructions, {heads} of them for the head and {copy} for the copy, ratio {(heads + whole) / (heads + copy):.2f}")
get = message("GET /files/app/refs%2Fheads%2Fmain/%2Fci.yml", b"")
half, whole = ((all_of(data + 3 * get) - all_of(data + get)) // 2 for data in put)
print(f"a get: {whole} instructions in all, {2 * (whole - half)} of them grow with the file")
for name, front, make in (
    ("long parameters", "POST /runs", lambda n: {"pipeline": "ci", "ref": "refs/heads/main", "parameters": {"a": "x" * n}}),
    ("short parameters", "POST /runs", lambda n: {"pipeline": "ci", "ref": "refs/heads/main", "parameters": {f"p{i}": "v" for i in range(n)}}),
    ("capabilities", "PUT /agents/linux-1", lambda n: {"pool": "Default", "capabilities": {f"cap.{i}": "yes" for i in range(n)}}),
    ("approvers", "PUT /resources/pool/p", lambda n: {"pipelines": "all", "exclusive": False, "checks": [
        {"kind": "approval", "approvers": [f"a{i}" for i in range(n)], "least": 1, "requester": False}]}),
    ("approvers in any order", "PUT /resources/pool/p", lambda n: {"pipelines": "all", "exclusive": False, "checks": [
        {"kind": "approval", "approvers": [f"a{i * 7919 % 32749}" for i in range(n)], "least": 1, "requester": False}]}),
    ("patterns", "PUT /resources/pool/p", lambda n: {"pipelines": "all", "exclusive": False, "checks": [
        {"kind": "branch", "patterns": [f"refs/heads/{i}" for i in range(n)]}]}),
    ("pipelines", "PUT /resources/pool/p", lambda n: {"pipelines": [f"p{i}" for i in range(n)], "exclusive": False, "checks": []}),
    ("roles", "PUT /principals/ann", lambda n: {"roles": ["Reader"] * n, "tokenSha256": "0" * 64}),
    ("templates", "PUT /resources/pool/p", lambda n: {"pipelines": "all", "exclusive": False, "checks": [
        {"kind": "requiredTemplate", "templates": [{"repo": "shared", "ref": "refs/heads/main", "path": f"/{i}.yml"} for i in range(n)]}]}),
    ("branch controls", "PUT /resources/pool/p", lambda n: {"pipelines": "all", "exclusive": False, "checks": [
        {"kind": "branch", "patterns": ["*"]}] * n}),
    ("approvals", "PUT /resources/pool/p", lambda n: {"pipelines": "all", "exclusive": False, "checks": [
        {"kind": "approval", "approvers": ["ann"], "least": 1, "requester": False}] * n}),
    ("hours in UTC", "PUT /resources/pool/p", lambda n: {"pipelines": "all", "exclusive": False, "checks": [
        {"kind": "hours", "days": ["Mon"], "zone": "UTC", "start": 0, "end": 1}] * n}),
    ("hours by a rule", "PUT /resources/pool/p", lambda n: {"pipelines": "all", "exclusive": False, "checks": [
        {"kind": "hours", "days": ["Mon"], "zone": "CET-1CEST,M3.5.0,M10.5.0/3", "start": 0, "end": 1}] * n}),
    ("long pipelines of two bytes a character", "PUT /resources/pool/p", lambda n: {
        "pipelines": ["é" * 50] * n, "exclusive": False, "checks": []}),
    ("short pipelines of two bytes a character", "PUT /resources/pool/p", lambda n: {
        "pipelines": ["é"] * n, "exclusive": False, "checks": []}),
    ("long pipelines", "PUT /resources/pool/p", lambda n: {"pipelines": ["p" * 100] * n, "exclusive": False, "checks": []}),
    *((f"pipelines of {n} bytes", "PUT /resources/pool/p", lambda k, n=n: {"pipelines": ["p" * n] * k, "exclusive": False, "checks": []})
        for n in (5, 15, 31, 63)),
    *((f"pipelines of {n} bytes, two a character", "PUT /resources/pool/p", lambda k, n=n: {
        "pipelines": ["é" * (n // 2)] * k, "exclusive": False, "checks": []}) for n in (15, 31, 63)),
    ("capabilities of two bytes a character", "PUT /agents/linux-1", lambda n: {
        "pool": "Default", "capabilities": {"é" * 45 + f"{i}": "" for i in range(n)}}),
    ("paths of short segments", "PUT /resources/pool/p", lambda n: {"pipelines": "all", "exclusive": False, "checks": [
        {"kind": "requiredTemplate", "templates": [{"repo": "a", "ref": "refs/", "path": "/a" * 128}] * n}]}),
    ("paths of one segment", "PUT /resources/pool/p", lambda n: {"pipelines": "all", "exclusive": False, "checks": [
        {"kind": "requiredTemplate", "templates": [{"repo": "a", "ref": "refs/", "path": "/" + "a" * 255}] * n}]}),
):
    content = filled(make)
    whole = instructions(message(front, content), asked, asked)[0]
    reading, letting_go = read_alone(content)
    print(f"{name}: {whole} instructions, serde_json's reading {reading}, letting go {letting_go}, bare {whole / reading:.2f}, whole {whole / (reading + letting_go):.2f}", flush=True)
PYTHON
