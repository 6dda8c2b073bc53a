"""How much a process takes: seconds of processor time, the most memory and the most stack, and how it ended."""

import collections
import ctypes
import os
import resource
import signal

LIBC = ctypes.CDLL(None, use_errno=True)
LIBC.ptrace.argtypes = [ctypes.c_long, ctypes.c_long, ctypes.c_void_p, ctypes.c_void_p]
TRACE_ME, CONTINUE, SET_OPTIONS = 0, 7, 0x4200
TELL_THE_END, END_WITH_US, END_EVENT = 0x40, 0x100000, 6
MIB = 1 << 20

# `ending` is the status, or the negative number of the signal; megabytes are of 10^6 bytes, `stack` is in KiB. `output` and `told`
# are what it wrote to its standard output and error.
Measured = collections.namedtuple("Measured", "seconds megabytes stack ending output told")


def told(process, field):
    """A number of KiB that the system tells of a process."""
    with open(f"/proc/{process}/status", encoding="ascii") as lines:
        return next((int(line.split()[1]) for line in lines if line.startswith(field)), 0)


def read(path):
    """The bytes of a file."""
    with open(path, "rb") as file:
        return file.read()


def begin(words, text, output, seconds, memory, stack):
    """Becomes the program in a child that is watched."""
    os.dup2(os.open(text, os.O_RDONLY), 0)
    os.dup2(os.open(output, os.O_WRONLY | os.O_CREAT | os.O_TRUNC, 0o600), 1)
    os.dup2(os.open(output + ".told", os.O_WRONLY | os.O_CREAT | os.O_TRUNC, 0o600), 2)
    resource.setrlimit(resource.RLIMIT_CORE, (0, 0))
    resource.setrlimit(resource.RLIMIT_CPU, (seconds, seconds))
    resource.setrlimit(resource.RLIMIT_AS, (memory * MIB, memory * MIB))
    resource.setrlimit(resource.RLIMIT_STACK, (stack * MIB, stack * MIB))
    LIBC.ptrace(TRACE_ME, 0, None, None)
    os.execv(words[0], words)


def measure(words, text, output, seconds=10, memory=4096, stack=64):
    """Runs a program over a file. It ends after so many seconds, MiB of memory or of stack."""
    process = os.fork()
    if not process:
        try:
            begin(words, text, output, seconds, memory, stack)
        finally:
            os._exit(127)
    os.waitpid(process, 0)
    LIBC.ptrace(SET_OPTIONS, process, None, TELL_THE_END | END_WITH_US)
    stack_most = held_most = number = 0
    while True:
        LIBC.ptrace(CONTINUE, process, None, number)
        _, status, used = os.wait4(process, 0)
        if not os.WIFSTOPPED(status):
            break
        number = os.WSTOPSIG(status)
        if status >> 16 == END_EVENT or number == signal.SIGSEGV:
            stack_most = max(stack_most, told(process, "VmStk"))
            held_most = max(held_most, told(process, "VmHWM"))
        if status >> 16:
            number = 0
    ending = os.waitstatus_to_exitcode(status)
    written, told_people = read(output), read(output + ".told")
    return Measured(used.ru_utime + used.ru_stime, (held_most or used.ru_maxrss) * 1.024e-3, stack_most, ending, written, told_people)
