"""How much stack a thread has, by the most frames of 4 KiB (threads.rt.in) with which it ends well.

    python3 bench/stack/threads.py PROGRAM

PROGRAM is threads.rt.in as LLVM builds it. For each limit that the system is told (`ulimit -s`): the first thread and one of
`thread::spawn`; then threads of `thread::Builder` that ask for so many bytes of stack, with the most memory of one that uses none
of it."""

import os
import resource
import subprocess
import sys

MIB = 1 << 20
ENDS = (0, 64)


def status(words, limit):
    """How the program ends where the stack's limit is so many bytes."""

    def limited():
        resource.setrlimit(resource.RLIMIT_CORE, (0, 0))
        resource.setrlimit(resource.RLIMIT_STACK, (limit, resource.getrlimit(resource.RLIMIT_STACK)[1]))

    return subprocess.run(words, preexec_fn=limited, capture_output=True).returncode


def frames(program, kind, limit=8 * MIB):
    """The most frames with which it ends well, of 65,536."""
    fewest, most = 0, 65_537
    while most - fewest > 1:
        middle = (fewest + most) // 2
        if status([program, kind, str(middle)], limit) in ENDS:
            fewest = middle
        else:
            most = middle
    return fewest


def memory(words):
    """The most memory of a run, in KiB."""
    process = os.fork()
    if not process:
        os.execv(words[0], words)
    return os.wait4(process, 0)[2].ru_maxrss


def main():
    program = sys.argv[1]
    for name, limit in ("2 MiB", 2 * MIB), ("8 MiB", 8 * MIB), ("16 MiB", 16 * MIB), ("unlimited", resource.RLIM_INFINITY):
        print(f"ulimit -s {name}: first thread {frames(program, 'main', limit)}, thread::spawn {frames(program, 'spawn', limit)}", flush=True)
    for size in 64 << 10, 128 << 10, 200 << 10, MIB, 8 * MIB, 64 * MIB, 1 << 30:
        told = memory([program, str(size), "0"])
        print(f"stack_size {size}: {frames(program, str(size))} frames, {told} KiB of memory without one", flush=True)


if __name__ == "__main__":
    main()
