#!/usr/bin/env python3
"""Tries `pipectl` with `--store` over real files: program.py PIPECTL PART..

Parts: `rows` (three texts are queued, and are there after the next opening), `two` (two programs on one store, and a copy of an open one), `refusals` (what
isn't taken over: status 4, nothing read, one line), `kills` (a replay killed at random moments: each run that was answered is
there, at most one more, none in part), `full` (a full disk; needs root), `memory` (each call for memory of an opening and of two texts
is refused alone, by bench/memory/refuse.c: what was acknowledged is there at the next opening, and nothing else but what a status
of 6 leaves open), `costs` (1,000 texts beside 1,000 commits of the same rows by Python's sqlite3 at full syncs, as the disk is and where each sync takes 1, 5 and 10
milliseconds more: slow.c), `counted` (the instructions of a text behind others; needs valgrind). Prints a line for each thing that was tried, and ends with 0 where all held. Works in a new
folder below the current one.
"""
import hashlib
import json
import os
import random
import re
import resource
import shutil
import signal
import sqlite3
import statistics
import subprocess
import sys
import tempfile
import time

from cases import openings

program = os.path.abspath(sys.argv[1])
admin = hashlib.sha256(b"abc").hexdigest()
TEXT = b"steps:\n- script: echo hi\n"
# The run of it ends as it is queued.
SKIPPED = b"stages:\n- stage: A\n  condition: false\n  jobs:\n  - job: J\n    steps:\n    - script: echo hi\n"
failed = 0


def told(name, holds, more=""):
    global failed
    failed += not holds
    print(f"{name}: {'held' if holds else 'FAILED'}{' ' + more if more else ''}", flush=True)


def message(method, target, body=b""):
    head = f"{method} {target} HTTP/1.1\r\nAuthorization: Bearer abc\r\nContent-Length: {len(body)}\r\n\r\n"
    return head.encode() + body


class Replay:
    """A running `replay` over a store."""

    def __init__(self, path, **more):
        words = [program, "replay", "--admin", admin, "--store", path]
        self.proc = subprocess.Popen(words, stdin=subprocess.PIPE, stdout=subprocess.PIPE, stderr=subprocess.PIPE, **more)

    def ask(self, method, target, body=b""):
        """Sends a message, and answers the reply's status and content; none where the program ended first."""
        try:
            self.proc.stdin.write(message(method, target, body))
            self.proc.stdin.flush()
        except BrokenPipeError:
            return None
        return self.reply()

    def reply(self):
        head = b""
        while not head.endswith(b"\r\n\r\n"):
            byte = self.proc.stdout.read(1)
            if not byte:
                return None
            head += byte
        lines = head.decode().split("\r\n")
        length = next((int(it.split(":")[1]) for it in lines if it.lower().startswith("content-length:")), 0)
        content = self.proc.stdout.read(length)
        return (int(lines[0].split()[1]), json.loads(content) if content else None) if len(content) == length else None

    def close(self):
        """Ends the input: the status, and what is left of the output and of the errors."""
        out, err = self.proc.communicate()
        return self.proc.returncode, out, err.decode()


def queued(number):
    return (201, {"run": number})


def rows():
    replay = Replay("rows.db")
    answers = [replay.ask("POST", "/texts", TEXT) for _ in range(3)]
    told("three texts are queued", answers == [queued(n) for n in (1, 2, 3)], repr(answers) if answers[-1:] != [queued(3)] else "")
    end = replay.close()
    told("the replay ends with 0", end == (0, b"", ""), repr(end))
    shutil.copy("rows.db", "alone.db")
    db = sqlite3.connect("alone.db")
    told("the log was copied into the file", db.execute("SELECT count(*) FROM pallwethig_rows_1 WHERE substr(place, 1, 1) = x'06'").fetchone() == (3,))
    db.close()
    replay = Replay("rows.db")
    first = [replay.ask("GET", f"/runs/{n}") for n in (1, 2, 3, 4)]
    told("they are there after the next opening", [it and it[0] for it in first] == [200, 200, 200, 404], repr([it and it[0] for it in first]))
    told("numbers go on", replay.ask("POST", "/texts", TEXT) == queued(4))
    told("a draw gives the first job", (replay.ask("PUT", "/principals/ann", json.dumps({"roles": ["Agent"], "tokenSha256": hashlib.sha256(b"ann").hexdigest()}).encode()) or [0])[0] == 200)
    told("and it ends with 0", replay.close()[0] == 0)


def two():
    first = Replay("two.db")
    told("a first program", first.ask("POST", "/texts", TEXT) == queued(1))
    second = Replay("two.db")
    end = second.close()
    told("a second one on its store", end == (4, b"", 'pipectl: "two.db": another program has it open\n'), repr(end))
    told("the first one goes on", first.ask("POST", "/texts", TEXT) == queued(2))
    for name in ("two.db", "two.db-wal"):
        shutil.copy(name, name.replace("two", "copy"))
    told("and ends with 0", first.close()[0] == 0)
    told("a copy of its file and its log, taken between two calls, has both runs", found("copy.db") == 2)


def refused(name, path, words, **more):
    before = open(path, "rb").read() if os.path.isfile(path) else None
    end = Replay(path, **more).close()
    after = open(path, "rb").read() if os.path.isfile(path) else None
    told(name, end == (4, b"", f'pipectl: "{path}": {words}\n') and before == after, "" if end[0] == 4 else repr(end))


def taken(name, path):
    end = Replay(path).close()
    told(name, end == (0, b"", ""), "" if end[0] == 0 else repr(end))


def refusals():
    openings(taken, refused, told)
    replay = Replay("torn.db")
    replay.ask("POST", "/texts", TEXT)
    replay.close()
    db = sqlite3.connect("torn.db")
    db.execute("DELETE FROM pallwethig_rows_1 WHERE place = x'00'")
    db.commit()
    db.close()
    end = Replay("torn.db").close()
    told("rows that don't stand together", end[0] == 5 and end[1] != b"" and end[1].count(b"\n") == 1, repr(end))


def found(path):
    """How many runs a store has, each of them whole; none where it isn't opened."""
    replay = Replay(path)
    many = 0
    while True:
        answer = replay.ask("GET", f"/runs/{many + 1}")
        if answer is None:
            return None
        if answer[0] != 200:
            break
        if [it["name"] for it in answer[1]["stages"]] != ["__default"]:
            return None
        many += 1
    return many if replay.close()[0] == 0 else None


def kills(times=200):
    some = random.Random(49)
    runs, holds, more, silent = 0, True, 0, 0
    for turn in range(times):
        path = f"killed-{turn // 20}.db"
        runs = runs if turn % 20 else 0
        replay = Replay(path)
        sent = some.randrange(1, 40)
        replay.proc.stdin.write(message("POST", "/texts", TEXT) * sent)
        replay.proc.stdin.flush()
        if some.random() < 0.8:
            replay.proc.stdout.peek(1)
        time.sleep(some.random() * some.choice((0.002, 0.02, 0.1)))
        replay.proc.send_signal(signal.SIGKILL)
        acknowledged = runs
        while (answer := replay.reply()) is not None:
            holds &= answer == queued(acknowledged + 1)
            acknowledged += 1
        silent += acknowledged == runs
        replay.proc.communicate()
        runs = found(path)
        holds &= runs in (acknowledged, acknowledged + 1)
        more += runs == acknowledged + 1
        runs = runs or 0
    told(f"{times} killed replays", holds, f"({silent} killed before an answer, {more} left a run that wasn't told)")


def full():
    os.mkdir("small")
    if subprocess.run(["mount", "-t", "tmpfs", "-o", "size=400k", "none", "small"]).returncode != 0:
        return told("a full disk", False, "no file system could be mounted")
    try:
        replay = Replay("small/rows.db")
        answers = []
        while len(answers) < 10000 and (not answers or answers[-1][0] == 201):
            answers.append(replay.ask("POST", "/texts", TEXT))
        told("a full disk is answered 503", answers[-1] == (503, {"rule": "keeper.fault"}) and len(answers) > 1, f"({len(answers) - 1} runs before it)")
        told("and so is the next call", replay.ask("POST", "/texts", TEXT) == (503, {"rule": "keeper.fault"}))
        told("the replay goes on to the end of its input", replay.close()[0] == 0)
        for name in ("rows.db", "rows.db-wal"):
            shutil.copy(f"small/{name}", f"copied-{name}")
        os.rename("copied-rows.db-wal", "copied.db-wal")
        os.rename("copied-rows.db", "copied.db")
        told("its runs are those that were told", found("copied.db") == len(answers) - 1)
    finally:
        subprocess.run(["umount", "small"])


def memory(step=int(os.environ.get("STEP", "1"))):
    """At first none is refused, which counts them. Of each refusal: the replies are 201 or 507 (or the status is 6), and the runs that the next opening finds are those of the 201s."""
    here = os.path.dirname(os.path.abspath(__file__))
    subprocess.run(["cc", "-O1", "-shared", "-fPIC", "-o", "refuse.so", f"{here}/../memory/refuse.c", "-ldl"], check=True)
    words, data = [program, "replay", "--admin", admin, "--store", "wanting.db"], message("POST", "/texts", TEXT) * 2
    seen, wrong, at, calls = {}, [], 0, 1
    while at <= calls:
        for name in ("wanting.db", "wanting.db-wal"):
            if os.path.exists(name):
                os.remove(name)
        env = dict(os.environ, LD_PRELOAD=f"{os.getcwd()}/refuse.so", REFUSE=str(at), REFUSED="calls")
        end = subprocess.run(words, input=data, capture_output=True, env=env)
        if at == 0:
            with open("calls", encoding="ascii") as file:
                calls = int(file.read())
        at += step
        statuses = tuple(int(it) for it in re.findall(rb"HTTP/1\.1 (\d+) ", end.stdout))
        told_runs = statuses.count(201)
        runs = found("wanting.db")
        kind = (end.returncode, statuses, None if runs is None else runs - told_runs)
        seen[kind] = seen.get(kind, 0) + 1
        good = set(statuses) <= {201, 507} and end.returncode in (0, 4, 6) and (len(statuses) == 2 or end.returncode)
        if not good or runs != told_runs and not (end.returncode == 6 and runs == told_runs + 1):
            wrong.append((at - step, end.returncode, statuses, runs, end.stderr))
    told(f"{calls} calls for memory, each {step}th refused alone", not wrong, repr(wrong[:5]) if wrong else "")
    for (status, statuses, more), many in sorted(seen.items(), key=repr):
        print(f"  status {status}, replies {statuses}, {more} runs more than told: {many} times")


def preloaded():
    """The library that makes syncs slower."""
    here = os.path.dirname(os.path.abspath(__file__))
    if not os.path.exists("slow.so"):
        subprocess.run(["cc", "-O1", "-shared", "-fPIC", "-o", "slow.so", f"{here}/slow.c", "-ldl"], check=True)
    return f"{os.getcwd()}/slow.so"


def replayed(path, text, many, env):
    """A replay of so many of a text over a store, or one in memory without a path: the seconds by the clock and of the processor."""
    words = [program, "replay", "--admin", admin] + (["--store", path] if path else [])
    start, used = time.perf_counter(), resource.getrusage(resource.RUSAGE_CHILDREN)
    end = subprocess.run(words, input=message("POST", "/texts", text) * many, capture_output=True, env=env)
    took, now = time.perf_counter() - start, resource.getrusage(resource.RUSAGE_CHILDREN)
    if end.returncode != 0 or end.stdout.count(b"201 Created") != many:
        raise SystemExit(repr(end)[:300])
    return took, now.ru_utime + now.ru_stime - used.ru_utime - used.ru_stime


def bare(store, new, env):
    """The bare commits of a store's runs: the seconds by the clock and of the processor."""
    here = os.path.dirname(os.path.abspath(__file__))
    end = subprocess.run([sys.executable, "-B", f"{here}/bare.py", store, new], capture_output=True, env=env, check=True)
    return tuple(map(float, end.stdout.split()))


def beside(name, text, milliseconds, many, turns):
    """A replay of texts over a store and the bare commits of its rows, by turns, where each sync takes so many milliseconds more."""
    env = dict(os.environ, LD_PRELOAD=preloaded(), SLOW=str(round(milliseconds * 1000)))
    here, there, memory, syncs = [], [], [], []
    for turn in range(turns):
        path = f"{milliseconds}-{turn}-{len(text)}.db"
        here.append(replayed(f"cost-{path}", text, many, dict(env, SYNCED="here.syncs")))
        there.append(bare(f"cost-{path}", f"bare-{path}", dict(env, SYNCED="bare.syncs")))
        memory.append(replayed(None, text, many, env))
        syncs = [int(open(f"{it}.syncs", encoding="ascii").read()) for it in ("here", "bare")]
    ratio = statistics.median(a[0] / b[0] for a, b in zip(here, there))

    def spelled(times):
        return "%.2f (least %.2f, of the processor %.2f)" % (statistics.median(it[0] for it in times), min(it[0] for it in times), statistics.median(it[1] for it in times))

    told(f"{many:,} texts {name} beside bare commits of their rows, each sync {milliseconds} ms more", ratio <= 1.2,
         f"(by turns {ratio:.2f}; median seconds: here {spelled(here)} with {syncs[0]} syncs, in memory {spelled(memory)}, sqlite3 {spelled(there)} with {syncs[1]} syncs)")


def costs(many=int(os.environ.get("TEXTS", "1000")), turns=int(os.environ.get("TURNS", "7"))):
    for milliseconds in map(float, os.environ.get("SLOWER", "0 1 5 10").split()):
        for name, text in (("whose runs stay open", TEXT), ("whose runs end at once", SKIPPED)):
            beside(name, text, milliseconds, many, turns if milliseconds < 1 else min(turns, 3))


def instructions(path, text, many):
    """What callgrind counts of a replay of so many of a text."""
    words = ["valgrind", "--tool=callgrind", "--callgrind-out-file=callgrind", program, "replay", "--admin", admin] + (["--store", path] if path else [])
    end = subprocess.run(words, input=message("POST", "/texts", text) * many, capture_output=True)
    return int(re.search(rb"Collected : (\d+)", end.stderr)[1])


def counted(few=20, many=60):
    """The instructions of a text behind others, in memory and over a store."""
    for name, text in (("whose run stays open", TEXT), ("whose run ends at once", SKIPPED)):
        memory = (instructions(None, text, many) - instructions(None, text, few)) // (many - few)
        store = (instructions(f"many-{len(text)}.db", text, many) - instructions(f"few-{len(text)}.db", text, few)) // (many - few)
        print(f"instructions of a text {name}, behind {few} to {many} others: in memory {memory:,}, over a store {store:,}", flush=True)


work = tempfile.mkdtemp(prefix="store-", dir=".")
os.chdir(work)
try:
    for part in sys.argv[2:]:
        {"rows": rows, "two": two, "refusals": refusals, "kills": kills, "full": full, "memory": memory, "costs": costs, "counted": counted}[part]()
finally:
    os.chdir("..")
    shutil.rmtree(work)
sys.exit(failed != 0)
