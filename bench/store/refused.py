#!/usr/bin/env python3
"""Runs `disks memory` (disks.rt.in) with each of its calls for memory refused alone: refused.py PROGRAM [FIRST]. An entry is made or nothing is kept and no fault is counted, and asked for again it is made: so it
prints that it held, whichever call was refused. Prints how many calls there were and ends with 0 where all held. Needs cc (bench/memory/refuse.c)."""
import os
import subprocess
import sys
import tempfile

HERE = os.path.dirname(os.path.abspath(__file__))


def ran(program, work, number):
    """What `disks memory` says where a call for memory is refused, by its number; of none, 0."""
    env = dict(os.environ, LD_PRELOAD=f"{work}/refuse.so", REFUSE=str(number), REFUSED=f"{work}/calls")
    end = subprocess.run([program, "memory"], capture_output=True, env=env, check=False)
    return end.returncode, end.stdout


def main(program, first=1):
    with tempfile.TemporaryDirectory() as work:
        subprocess.run(["cc", "-O1", "-shared", "-fPIC", "-o", f"{work}/refuse.so", f"{HERE}/../memory/refuse.c", "-ldl"], check=True)
        whole = ran(program, work, 0)
        with open(f"{work}/calls", encoding="ascii") as file:
            calls = int(file.read())
        wrong, words = [], 0
        for number in range(first, calls + 1):
            end = ran(program, work, number)
            if end == (2, b""):
                words += 1
            elif end != (0, b"memory: held\n"):
                wrong.append((number, end))
    holds = whole == (0, b"memory: held\n") and not wrong
    more = f" ({words} of them while the words were read)" if words else ""
    print(f"{calls} calls for memory, each refused alone{f' from {first} on' if first > 1 else ''}{more}: {'held' if holds else f'FAILED {wrong[:5]}'}")
    return not holds


if __name__ == "__main__":
    sys.exit(main(os.path.abspath(sys.argv[1]), *map(int, sys.argv[2:3])))
