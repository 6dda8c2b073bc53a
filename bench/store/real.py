#!/usr/bin/env python3
"""Tries a built program of `keeps.rt.in` over real files: real.py PROGRAM PART..

Parts: `refusals` (what is taken and what is refused, with the reason, and that a refused file stays), `kills` (a child killed
at 200 random moments), `two` (two programs on one store), `full` (a full disk; needs root, for a small file system), `costs`
(commits beside Python's sqlite3, and an opening of many rows beside its SELECT and Python's decoding of them). Prints a line for each thing that was tried, and ends with 0
where all held. Works in a new folder below the current one.
"""
import os
import random
import resource
import shutil
import signal
import sqlite3
import statistics
import subprocess
import sys
import tempfile
import time

from cases import FULL, LOCKED, made, openings, ours

TOP = os.path.dirname(os.path.dirname(os.path.dirname(os.path.abspath(__file__))))
sys.path.append(f"{TOP}/bench/rows")
from ended import record_of, rows

program = os.path.abspath(sys.argv[1])
failed = 0


def told(name, holds, more=""):
    global failed
    failed += not holds
    print(f"{name}: {'held' if holds else 'FAILED'}{' ' + more if more else ''}", flush=True)


def run(path, what, lines="", **more):
    return subprocess.run([program, path, what], input=lines.encode(), capture_output=True, timeout=600, **more)


def rows_after(entries):
    """What `rows` is to print after so many entries: table, key and body of each row, in order of table and key."""
    rows = [(0, b"", (entries - 1).to_bytes(8, "big"))] if entries else []
    rows += [(6, n.to_bytes(8, "big"), b"r" * 300) for n in range(entries)]
    rows += [(7, n.to_bytes(8, "big"), b"s" * 100) for n in range(entries)]
    return "".join(f"{table:02x} {key.hex()} {body.hex()}\n" for table, key, body in rows).encode()


def bytes_of(path):
    try:
        with open(path, "rb") as file:
            return file.read()
    except OSError as error:
        return error.errno


def refused(name, path, why, **more):
    """The path is refused with this reason, on standard error alone and by status 4, and its bytes stay."""
    before = bytes_of(path)
    end = run(path, "count", **more)
    holds = end.returncode == 4 and end.stdout == b"" and end.stderr.decode() == f"{path}: {why}\n"
    told(name, holds and bytes_of(path) == before, "" if holds else repr(end))


def taken(name, path, count=0):
    end = run(path, "count")
    told(name, (end.returncode, end.stdout, end.stderr) == (0, b"%d\n" % count, b""), repr(end) if end.returncode else "")


def refusals():
    openings(taken, refused, told)
    told("an entry in it", run("log.db", "each", "1\n").stdout == b"0\n" and run("log.db", "rows").stdout == rows_after(1))
    made("damaged.db", ours, "INSERT INTO pallwethig_rows_1 VALUES (x'', x'00')")
    end = run("damaged.db", "rows")
    told("a row without a table's byte", end.returncode == 4 and end.stderr == b"damaged.db: 1 faults\n", repr(end.stderr))


def child(path):
    # The lines of a child that never ends by itself.
    proc = subprocess.Popen([program, path, "each"], stdin=subprocess.PIPE, stdout=subprocess.PIPE, stderr=subprocess.PIPE)
    proc.stdin.write(b"100000000\n")
    proc.stdin.flush()
    return proc


def killed(path, some):
    """A child is killed at a random moment. Tells the entries that it told last, or None; how many there are then, or None."""
    proc = child(path)
    begun = proc.stdout.read(1) if some.random() < 0.8 else b""
    time.sleep(some.random() * some.choice((0.002, 0.02, 0.1)))
    proc.send_signal(signal.SIGKILL)
    lines = (begun + proc.stdout.read()).split(b"\n")[:-1]
    proc.wait()
    end = run(path, "rows")
    many = (end.stdout.count(b"\n")) // 2
    return (int(lines[-1]) + 1 if lines else None), (many if end.returncode == 0 and end.stdout == rows_after(many) else None)


def kills(times=200, each=20):
    some = random.Random(49)
    for first in range(0, times, each):
        entries, holds, silent, more = 0, True, 0, 0
        for _ in range(min(each, times - first)):
            acknowledged, found = killed(f"killed-{first}.db", some)
            silent += acknowledged is None
            entries = max(entries, acknowledged or 0)
            holds &= found in (entries, entries + 1)
            more += found == entries + 1
            entries = found or 0
        told(f"{min(each, times - first)} killed children", holds, f"({silent} killed before an entry was told, {more} left an entry that wasn't told)")


def two():
    proc = child("two.db")
    proc.stdout.readline()
    end = run("two.db", "each", "1\n")
    told("a second program on one store", end.returncode == 4 and end.stderr == f"two.db: {LOCKED}\n".encode() and end.stdout == b"")
    first = int(proc.stdout.readline())
    told("the first one goes on", first > 0)
    proc.kill()
    proc.communicate()


def full():
    os.mkdir("small")
    if subprocess.run(["mount", "-t", "tmpfs", "-o", "size=400k", "none", "small"]).returncode != 0:
        return told("a full disk", False, "no file system could be mounted")
    try:
        end = run("small/rows.db", "each", "10000\n")
        entries = len(end.stdout.split())
        told("a full disk is a fault", end.returncode == 4 and entries > 0, f"({entries} entries before it)")
        new = run("small/new.db", "count")
        told("a new store on it is refused", (new.returncode, new.stdout, new.stderr) == (4, b"", f"small/new.db: {FULL}\n".encode()), repr(new.stderr))
        after = run("small/rows.db", "each", "1\n")
        told("a full disk is a fault again", after.returncode == 4 and after.stdout == b"", repr(after.stderr))
        for name in ("rows.db", "rows.db-wal"):
            shutil.copy(f"small/{name}", name)
        told("its rows are those that were told", run("rows.db", "rows").stdout == rows_after(entries))
    finally:
        subprocess.run(["umount", "small"])


class Commits:
    """A child that makes so many entries and says when."""

    def __init__(self, path):
        self.proc = subprocess.Popen([program, path, "last"], stdin=subprocess.PIPE, stdout=subprocess.PIPE)
        self.make(1)

    def make(self, many):
        self.proc.stdin.write(b"%d\n" % many)
        self.proc.stdin.flush()
        self.proc.stdout.readline()

    def close(self):
        self.proc.communicate()


class Python:
    """The same rows by Python's sqlite3."""

    def __init__(self, path):
        self.db = sqlite3.connect(path, isolation_level=None)
        self.db.execute("PRAGMA journal_mode=WAL")
        self.db.execute("PRAGMA synchronous=FULL")
        self.db.execute(ours)
        self.next = 0
        self.make(1)

    def make(self, many):
        text = "INSERT OR REPLACE INTO pallwethig_rows_1 (place, body) VALUES (?1, ?2)"
        for _ in range(many):
            number = self.next.to_bytes(8, "big")
            self.db.execute("BEGIN IMMEDIATE")
            self.db.execute(text, (b"\x06" + number, b"r" * 300))
            self.db.execute(text, (b"\x07" + number, b"s" * 100))
            self.db.execute(text, (b"\x00", number))
            self.db.execute("COMMIT")
            self.next += 1

    def close(self):
        self.db.close()


def timed(work):
    start = time.perf_counter()
    work()
    return time.perf_counter() - start


def worked(work):
    """The processor time of the children of some work."""
    def used():
        it = resource.getrusage(resource.RUSAGE_CHILDREN)
        return it.ru_utime + it.ru_stime
    start = used()
    work()
    return used() - start


def commits(turns=60, many=25):
    sides = (Commits("cost.db"), Python("cost-python.db"))
    times = ([], [])
    for turn in range(turns):
        for at in (0, 1) if turn % 2 else (1, 0):
            times[at].append(timed(lambda: sides[at].make(many)) / many * 1e6)
    for side in sides:
        side.close()
    rates = [statistics.median(b / a for a, b in zip(*times)), sum(times[1]) / sum(times[0]), min(times[1]) / min(times[0])]
    print("microseconds a commit, median (least): here %.0f (%.0f), sqlite3 %.0f (%.0f)" % (
        statistics.median(times[0]), min(times[0]), statistics.median(times[1]), min(times[1])))
    told("commits beside sqlite3's", rates[0] >= 0.9, "(by turns %.2f of its rate, in all %.2f, at best %.2f)" % tuple(rates))


def filled(path, kept):
    """A database of these rows, by Python's sqlite3."""
    db = sqlite3.connect(path, isolation_level=None)
    db.execute("PRAGMA journal_mode=WAL")
    db.execute(ours)
    db.execute("BEGIN")
    db.executemany("INSERT INTO pallwethig_rows_1 (place, body) VALUES (?1, ?2)", ((bytes([table]) + key, body) for table, key, body in kept))
    db.execute("COMMIT")
    db.close()


def selected(path):
    db = sqlite3.connect(path)
    rows = [(place[0], place[1:], body) for place, body in db.execute("SELECT place, body FROM pallwethig_rows_1 ORDER BY place")]
    db.close()
    return rows


def opening(runs=int(os.environ.get("RUNS", "10000")), turns=int(os.environ.get("TURNS", "7"))):
    """Opening a store, reading its rows and decoding each into a record, beside Python's SELECT of the same rows and their decoding, by processor time. The rows are those of ended runs of the example."""
    kept = rows(runs, TOP)
    filled("many.db", kept)
    assert run("many.db", "records").stdout == b"%d\n" % len(kept)
    run("none.db", "count")
    times = {name: [] for name in ("count", "records", "select", "decode")}
    for _ in range(turns):
        base = worked(lambda: run("none.db", "count"))
        for what in ("count", "records"):
            times[what].append(worked(lambda: run("many.db", what)) - base)
        start = time.process_time()
        found = selected("many.db")
        middle = time.process_time()
        records = [record_of(*row) for row in found]
        times["decode"].append(time.process_time() - middle)
        times["select"].append(middle - start)
        assert len(records) == len(kept)
        del found, records
    mid = {name: statistics.median(all_of) * 1e3 for name, all_of in times.items()}
    here, there = mid["records"], mid["select"] + mid["decode"]
    told("opening many rows and decoding them", here <= 1.5 * there, "(%d rows of %.1f MB; milliseconds of the processor: opened and told %.0f, decoded too %.0f; sqlite3's SELECT %.0f, decoded by Python %.0f; ratio %.2f, beside the SELECT alone %.2f)" % (
        len(kept), sum(len(key) + len(body) for _, key, body in kept) / 1e6, mid["count"], here, mid["select"], mid["decode"], here / there, mid["count"] / mid["select"]))


def costs():
    commits()
    opening()


work = tempfile.mkdtemp(prefix="store-", dir=".")
os.chmod(work, 0o777)
os.chdir(work)
try:
    for part in sys.argv[2:]:
        {"refusals": refusals, "kills": kills, "two": two, "full": full, "costs": costs, "commits": commits, "opening": opening}[part]()
finally:
    os.chdir("..")
    shutil.rmtree(work)
sys.exit(failed != 0)
