#!/bin/sh
# Counts the instructions of `pipectl replay` by callgrind on heads that come byte by byte, and prints them for each byte;
# those of an empty input are taken off. Each byte is a write of its own into a pipe that keeps writes apart (O_DIRECT), so a
# read gets one byte. Needs valgrind and python3, and proves the program first where it isn't proved. Not a part of the gate.
set -e
top=$(cd "$(dirname "$0")/../.." && pwd)
program=${1:-$top/crates/pipectl/out/pipectl}
[ -n "$1" ] || "$top/tools/prove"
python3 - "$program" <<'PYTHON'
import os, re, subprocess, sys

program = sys.argv[1]
admin = "ba7816bf8f01cfea414140de5dae2223b00361a396177a9cb410ff61f20015ad"
command = ["valgrind", "--tool=callgrind", "--callgrind-out-file=/dev/null", program, "replay", "--admin", admin]


def instructions(data, piece=1):
    taken, given = os.pipe2(os.O_DIRECT)
    child = subprocess.Popen(command, stdin=taken, stdout=subprocess.DEVNULL, stderr=subprocess.PIPE)
    os.close(taken)
    try:
        for at in range(0, len(data), piece):
            os.write(given, data[at:at + piece])
    except BrokenPipeError:
        pass
    os.close(given)
    return int(re.search(r"Collected : (\d+)", child.stderr.read().decode()).group(1))


def filled(front, part, size):
    return (front + part * (size // len(part) + 1))[:size]


def lines(size):
    front = b"GET / HTTP/1.1\r\n"
    line = (size - len(front)) // 64
    head = front + (b"A: " + b"b" * (line - 5) + b"\r\n") * 64
    return head + b"C" * (size - len(head))


message = b"POST /draw HTTP/1.1\r\nAuthorization: Bearer abc\r\nContent-Length: 0\r\n\r\n"
awaited = b"POST /texts HTTP/1.1\r\nAuthorization: Bearer abc\r\nContent-Length: 262144\r\n\r\n"
none = instructions(b"")
for name, make in (
    ("one long value", lambda size: filled(b"GET / HTTP/1.1\r\nA: ", b"b", size)),
    ("64 header lines", lines),
    ("empty lines", lambda size: filled(b"", b"\r\n", size)),
    ("one long target", lambda size: filled(b"GET /", b"a", size)),
    ("one long method", lambda size: filled(b"", b"G", size)),
    ("one long name", lambda size: filled(b"GET / HTTP/1.1\r\n", b"A", size)),
    ("content behind a head", lambda size: filled(awaited, b"a", size)),
    ("whole messages", lambda size: message * (size // len(message))),
):
    counts = []
    for size in (4096, 8192, 16384):
        data = make(size)
        counts.append(f"{(instructions(data) - none) / len(data):.0f}")
    print(f"{name}: {', '.join(counts)} instructions a byte", flush=True)
for count in (2500, 5000, 10000):
    data = message * count
    print(f"{count} messages in pieces of 4,096 bytes: {(instructions(data, 4096) - none) / len(data):.0f} instructions a byte", flush=True)
PYTHON
