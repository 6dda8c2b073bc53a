#!/usr/bin/env python3
"""Usage: bench/hostile/afl.py PROGRAM COMMAND SECONDS FOLDER [EACH]
Lets AFL++ (Debian's `afl++`) seek inputs of `PROGRAM compile` or `PROGRAM replay` for so many seconds by the clock. It begins with the
small bundles or sessions of tools/fuzz, or where EACH is said with each so many-th of them, and has the words of
bench/hostile/fuzz.words and mutate.py as its dictionary. FOLDER, which must be new, gets the beginnings and what AFL++ finds. Where
SECONDS is 0, FOLDER has what was found before, and that alone is run, by any program.

PROGRAM is one that tells AFL++ where it goes, as a build of the same text by clang with `-fsanitize-coverage=trace-pc-guard` does,
which is linked with AFL++'s afl-compiler-rt.o. Where it is another one, AFL++ works blindly (`-n`).

A failure is an end by a signal, which more than two seconds of processor time and more than 512 MB are too (over.c, preloaded; it
wants `cc`), and of `replay` status 6. Behind that each input that was kept, because it went a new way or failed, is run alone once
more, where a status that the command doesn't have is a failure too. Prints how many inputs were run and kept, and the most time and
memory. The status is 1 where there was a failure, else 0."""
import glob
import importlib.machinery
import importlib.util
import os
import re
import subprocess
import sys
import tempfile

TOP = os.path.dirname(os.path.dirname(os.path.dirname(os.path.realpath(__file__))))
sys.dont_write_bytecode = True
sys.path.insert(0, f"{TOP}/bench/hostile")
from measured import measure  # noqa: E402
from mutate import WORDS, seeds  # noqa: E402

LARGEST = 4_000


def loaded(name):
    """A tool as a module."""
    loader = importlib.machinery.SourceFileLoader(name, f"{TOP}/tools/{name}")
    made = importlib.util.module_from_spec(importlib.util.spec_from_loader(name, loader))
    loader.exec_module(made)
    return made


FUZZ = loaded("fuzz")


def beginnings(command, each):
    """The inputs with which it begins."""
    if command == "compile":
        found = [text.encode() for text in seeds()]
    else:
        found = [FUZZ.bytes_of_session(one) for one in FUZZ.sessions()]
        found += [FUZZ.bytes_of_session(one[at : at + 6]) for one in FUZZ.sessions() for at in range(0, len(one), 6)]
    return sorted({one for one in found if len(one) <= LARGEST}, key=len)[::each]


def written(folder, command, each):
    """Writes the beginnings and the dictionary."""
    os.makedirs(f"{folder}/in")
    for at, one in enumerate(beginnings(command, each)):
        with open(f"{folder}/in/{at:04}", "wb") as file:
            file.write(one)
    with open(f"{folder}/words", "w", encoding="ascii") as file:
        for word in dict.fromkeys([*FUZZ.words(), *WORDS, "%%% app refs/heads/main /ci.yml\n", "\r\n", "HTTP/1.1\r\n"]):
            spelled = "".join(chr(byte) if 32 <= byte < 127 and byte not in b'"\\' else f"\\x{byte:02x}" for byte in word.encode())
            if 0 < len(word.encode()) <= 128:
                file.write(f'"{spelled}"\n')


def tells(program):
    """Whether a program tells AFL++ where it goes."""
    with open(program, "rb") as file:
        return b"__AFL_SHM_ID" in file.read()


def sought(program, command, seconds, folder):
    """Runs AFL++, and returns what it tells at its end."""
    env = dict(os.environ, AFL_SKIP_CPUFREQ="1", AFL_NO_AFFINITY="1", AFL_NO_UI="1", AFL_I_DONT_CARE_ABOUT_MISSING_CRASHES="1")
    env["AFL_HANG_TMOUT"], env["AFL_MAP_SIZE"] = "20000", "262144"
    env["AFL_PRELOAD"], env["SECONDS"], env["MEGABYTES"] = f"{folder}/over.so", str(int(FUZZ.SECONDS)), str(FUZZ.MEGABYTES)
    if command == "replay":
        env["AFL_CRASH_EXITCODE"] = "6"
    words = ["afl-fuzz", "-i", f"{folder}/in", "-o", f"{folder}/out", "-x", f"{folder}/words", "-m", "none", "-t", "20000+", "-V", seconds]
    words += [] if tells(program) else ["-n"]
    words += ["--", program, command] + (["--admin", FUZZ.ADMIN] if command == "replay" else [])
    with open(f"{folder}/told", "wb") as told:
        subprocess.run(words, env=env, stdout=told, stderr=told, check=False)
    with open(f"{folder}/out/default/fuzzer_stats", encoding="utf-8") as file:
        return dict(re.findall(r"(?m)^(\w+) *: (.*)$", file.read()))


def judged(program, command, folder):
    """Runs each input that was kept alone, and returns how many failed and what is said of all."""
    kept = sorted(path for part in ("queue", "hangs", "crashes") for path in glob.glob(f"{folder}/out/default/{part}/id*"))
    wrong, most, ends = 0, (0.0, 0.0), {}
    with tempfile.TemporaryDirectory() as room:
        for path in kept:
            got = measure([program, command] + (["--admin", FUZZ.ADMIN] if command == "replay" else []), path, f"{room}/output")
            most = tuple(max(pair) for pair in zip(most, (got.seconds, got.megabytes)))
            ends[got.ending] = ends.get(got.ending, 0) + 1
            fault = FUZZ.failure(command, None, got) if got.ending not in FUZZ.STATUSES[command] or command == "compile" else ""
            if fault or got.seconds > FUZZ.SECONDS or got.megabytes > FUZZ.MEGABYTES:
                wrong += 1
                print(f"{path}: {fault or 'over'}: {got.seconds:.2f} s, {got.megabytes:.0f} MB, status {got.ending}")
    statuses = ", ".join(f"{end}: {many}" for end, many in sorted(ends.items()))
    return wrong, f"{len(kept)} kept ones alone: at most {most[0]:.2f} s, {most[1]:.0f} MB; {statuses}"


def main(program, command, seconds, folder, each="1"):
    program, folder = os.path.abspath(program), os.path.abspath(folder)
    crashes, said = 0, ""
    if int(seconds):
        written(folder, command, int(each))
        subprocess.run(["cc", "-O1", "-shared", "-fPIC", "-o", f"{folder}/over.so", f"{TOP}/bench/hostile/over.c"], check=True)
        told = sought(program, command, seconds, folder)
        crashes = int(told.get("saved_crashes", 0))
        said = f"{told['execs_done']} inputs in {told['run_time']} s, {told['corpus_count']} kept, {told.get('bitmap_cvg', '?')} of the edges; "
        said += f"{crashes} ends by a signal, {told['saved_hangs']} late; "
    wrong, kept = judged(program, command, folder)
    print(f"{command}: {said}{kept}; {wrong or crashes} failures")
    return 1 if wrong or crashes else 0


if __name__ == "__main__":
    if len(sys.argv) not in (5, 6) or sys.argv[2] not in ("compile", "replay"):
        print(__doc__, file=sys.stderr)
        sys.exit(64)
    sys.exit(main(*sys.argv[1:]))
