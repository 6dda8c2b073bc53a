"""Usage: measure.py LOAD PROGRAM PART..; prints what run.sh says. LOAD is load.c as it was built. Files stand below a new folder in the
current one."""

import hashlib
import http.client
import json
import os
import re
import resource
import shutil
import socket
import sqlite3
import statistics
import subprocess
import sys
import tempfile
import threading
import time

import masters

load, program, *parts = sys.argv[1:]
top = os.path.dirname(os.path.dirname(os.path.dirname(os.path.abspath(__file__))))
CLIENTS = [int(it) for it in os.environ.get("CLIENTS", "1 4 16 64").split()]
SECONDS = float(os.environ.get("LASTS", "3"))
HOW = os.environ.get("HOW", "kept each").split()
QUEUES = int(os.environ.get("QUEUES", "400"))
# What a server is started by: nothing, or valgrind.
started_by = []
running = []


def digest(text):
    return hashlib.sha256(text.encode()).hexdigest()


def message(method, target, by, body=b""):
    who = f"Authorization: Bearer {by}\r\n" if by else ""
    kind = "Content-Type: application/json\r\n" if body else ""
    length = "" if method == "GET" else f"Content-Length: {len(body)}\r\n"
    return f"{method} {target} HTTP/1.1\r\nHost: 127.0.0.1\r\n{who}{kind}{length}\r\n".encode() + body


class Server:
    """A running program with a port of the loopback."""

    def ask(self, method, target, by="abc", body=b""):
        link = http.client.HTTPConnection("127.0.0.1", self.port, timeout=60)
        head = {"Content-Type": "application/json"} | ({"Authorization": f"Bearer {by}"} if by else {})
        link.request(method, target, None if method == "GET" else body, head)
        reply = link.getresponse()
        content = reply.read()
        link.close()
        return reply.status, content

    def processor(self):
        """The seconds of processor time so far, of the program and of the system for it: its processes' clock, which others can read."""
        return time.clock_gettime((~self.process.pid << 3) | 2)

    def memory(self):
        """Resident memory now, in MB."""
        with open(f"/proc/{self.process.pid}/status", encoding="utf-8") as status:
            return int(re.search(r"VmRSS:\s+(\d+)", status.read())[1]) / 1024


class Ours(Server):
    """`pipectl serve` with all that examples/day.sh puts before it queues; `idler` is an agent for whom there is nothing."""

    def __init__(self, store=None):
        words = [*started_by, program, "serve", "--admin", digest("abc"), "--listen", "127.0.0.1:0"]
        self.process = subprocess.Popen(words + (["--store", store] if store else []), stderr=subprocess.PIPE, stdout=subprocess.DEVNULL)
        running.append(self.process)
        line = ""
        while not line.startswith("listening on "):
            line = self.process.stderr.readline().decode()
            assert line, self.process.wait()
        self.port = int(line.rsplit(":", 1)[1])
        threading.Thread(target=self.process.stderr.read, daemon=True).start()
        with open(f"{top}/examples/day.http", "rb") as day:
            before = day.read().split(b"POST /runs ")[0]
        link = socket.create_connection(("127.0.0.1", self.port))
        link.sendall(before)
        link.shutdown(socket.SHUT_WR)
        replies = b"".join(iter(lambda: link.recv(65536), b""))
        link.close()
        assert replies.count(b"HTTP/1.1 200 ") == replies.count(b"HTTP/1.1 "), replies
        self.ask("PUT", "/principals/idler", body=json.dumps({"roles": ["Agent"], "tokenSha256": digest("idler-token")}).encode())
        self.ask("PUT", "/agents/idler", body=b'{"pool":"linux","capabilities":{}}')

    QUEUE = b'{"pipeline":"shop","ref":"refs/heads/main","parameters":{}}'
    messages = {
        "draw": (message("POST", "/draw", "idler-token"), "204"),
        "read": (message("GET", "/runs/1", "ann-token"), "200"),
        "queue": (message("POST", "/runs", "ann-token", QUEUE), "201"),
    }

    def one_run(self):
        """A run whose first jobs are taken: one that can be read, and leaves nothing to draw."""
        assert self.ask("POST", "/runs", "ann-token", self.QUEUE)[0] == 201
        assert [self.ask("POST", "/draw", f"linux-{n}-token")[0] for n in (1, 2)] == [200, 200]

    def stop(self):
        assert self.ask("POST", "/shutdown")[0] == 200
        assert self.process.wait(20) == 0


class Master(Server):
    """Debian's buildbot master, by masters.py."""

    def __init__(self, folder):
        with socket.create_server(("127.0.0.1", 0)) as free:
            self.port = free.getsockname()[1]
        upgrade, start, environment = masters.laid(folder, self.port)
        subprocess.run(upgrade, cwd=folder, env=environment, check=True, capture_output=True)
        self.process = subprocess.Popen([*started_by, *start], cwd=folder, env=environment, stdout=subprocess.DEVNULL, stderr=subprocess.DEVNULL)
        running.append(self.process)
        for _ in range(6000):
            try:
                if self.ask("GET", "/api/v2/builders/1", None)[0] == 200:
                    return
            except OSError:
                time.sleep(0.1)
        sys.exit("buildbot's master didn't listen within ten minutes")

    FORCE = json.dumps({"jsonrpc": "2.0", "id": 1, "method": "force", "params": {"builderid": "1", "owner": "ann", "reason": "asked"}}).encode()
    messages = {
        "read": (message("GET", "/api/v2/buildrequests/1", None), "200"),
        "queue": (message("POST", "/api/v2/forceschedulers/force", None, FORCE), "200"),
    }

    def one_run(self):
        status, content = self.ask("POST", "/api/v2/forceschedulers/force", None, self.FORCE)
        assert status == 200, content

    def stop(self):
        self.process.terminate()
        self.process.wait(60)


def asked_for(server, clients, most, how, asked, seconds):
    """What load.c saw."""
    bytes_of, status = server.messages[asked]
    with tempfile.NamedTemporaryFile() as file:
        file.write(bytes_of)
        file.flush()
        words = [load, str(server.port), str(clients), str(most), str(seconds), how, file.name, status]
        done = subprocess.run(words, capture_output=True, text=True)
    if done.returncode:
        print(f"WRONG: {asked} {clients}: {done.stdout}{done.stderr}", flush=True)
    return json.loads(done.stdout)


def row(name, server, clients, how, asked, most):
    before = server.processor()
    got = asked_for(server, clients, most, how, asked, SECONDS if most > QUEUES else 120)
    after = server.processor()
    taken = 1e6 * (after - before) / max(1, got["done"])
    rate = got["done"] / got["seconds"]
    print(f"| {name} | {asked} | {clients} | {how} | {rate:,.0f} | {taken:,.0f} | {got['p50'] / 1e3:.2f} | {got['p99'] / 1e3:.2f} | {got['max'] / 1e3:.0f} | "
          f"{got['again']} | {server.memory():.0f} |", flush=True)
    return rate


def machine():
    model = re.search(r"model name\s*: (.*)", open("/proc/cpuinfo", encoding="utf-8").read())
    print(f"{os.cpu_count()} processors ({model[1] if model else '?'}), load {os.getloadavg()[0]:.1f}, Linux {os.uname().release}, "
          f"Python {sys.version.split()[0]} with SQLite {sqlite3.sqlite_version}; {SECONDS:g} seconds a row, {QUEUES} queued in all a row")
    print("| of | asked | clients | connections | a second | processor µs a request | p50 ms | p99 ms | greatest ms | opened again | MB behind |")
    print("|---|---|---|---|---|---|---|---|---|---|---|", flush=True)


def measured(name, opened):
    """Draws and reads beside one run, and queues, each time by a new server."""
    for how in HOW:
        for clients in CLIENTS:
            server = opened()
            server.one_run()
            for asked in ("draw", "read"):
                if asked in server.messages:
                    row(name, server, clients, how, asked, 10**9)
            row(name, server, clients, how, "queue", QUEUES)
            server.stop()


def ours():
    measured("memory", Ours)
    many = [0]

    def stored():
        many[0] += 1
        return Ours(f"rows-{many[0]}.db")

    measured("store", stored)


def buildbot():
    many = [0]

    def opened():
        many[0] += 1
        os.mkdir(f"master-{many[0]}")
        return Master(os.path.abspath(f"master-{many[0]}"))

    measured("buildbot", opened)


def commits(turns=int(os.environ.get("TURNS", "5"))):
    """Queues over one connection with a store beside the bare commits of the same rows by Python's sqlite3, by turns."""
    here, there = [], []
    for turn in range(turns):
        server = Ours(f"turn-{turn}.db")
        here.append(row("store", server, 1, "kept", "queue", QUEUES))
        server.stop()
        db = sqlite3.connect(f"turn-{turn}.db")
        kept = {place: body for place, body in db.execute("SELECT place, body FROM pallwethig_rows_1")}
        db.close()
        runs = sorted(it for it in kept if it[0] == 6)
        others = [[] for _ in runs]
        for place in kept:
            if place[0] > 6:
                others[int.from_bytes(place[1:9], "big") - 1].append(place)
        db = sqlite3.connect(f"bare-{turn}.db", isolation_level=None)
        db.execute("PRAGMA journal_mode=WAL")
        db.execute("PRAGMA synchronous=FULL")
        db.execute("CREATE TABLE pallwethig_rows_1 (place BLOB NOT NULL PRIMARY KEY, body BLOB NOT NULL) STRICT")
        start = time.perf_counter()
        for run, more in zip(runs, others):
            db.execute("BEGIN IMMEDIATE")
            for place in (run, *more, b"\0"):
                db.execute("INSERT OR REPLACE INTO pallwethig_rows_1 VALUES (?1, ?2)", (place, kept[place]))
            db.execute("COMMIT")
        there.append(len(runs) / (time.perf_counter() - start))
        db.close()
    ratio = statistics.median(a / b for a, b in zip(here, there))
    print(f"commits: {statistics.median(here):.0f} queues a second with a store, {statistics.median(there):.0f} bare commits of the same rows by "
          f"Python's sqlite3 ({len(others[0]) + 2} rows each): {ratio:.2f} times, the median of {turns} turns")


def idle(many=1000):
    """The memory of so many idle connections, and when one more is answered beside them."""
    soft, hard = resource.getrlimit(resource.RLIMIT_NOFILE)
    resource.setrlimit(resource.RLIMIT_NOFILE, (min(hard, max(soft, many + 100)), hard))
    server = Ours()
    server.one_run()
    before = server.memory()
    links = []
    for _ in range(many):
        link = socket.socket()
        link.setblocking(False)
        link.connect_ex(("127.0.0.1", server.port))
        links.append(link)
    time.sleep(1)
    beside = server.memory()
    begun = time.monotonic()
    status = server.ask("GET", "/runs/1", "ann-token")[0]
    took = time.monotonic() - begun
    threads = len(os.listdir(f"/proc/{server.process.pid}/task"))
    print(f"idle: {before:.1f} MB before, {beside:.1f} MB beside {many} idle connections, {server.memory():.1f} MB behind them; {threads} threads; "
          f"one more was answered {status} after {took:.2f} s")
    for link in links:
        link.close()
    server.stop()


def instructions(times=int(os.environ.get("TIMES", "20"))):
    """The instructions of requests behind others, over one connection: by callgrind, all threads and nothing else counted."""
    opened = {"memory": Ours, "store": lambda: Ours(f"counted-{time.monotonic()}.db"), "buildbot": lambda: Master(tempfile.mkdtemp(dir=os.getcwd()))}
    for name, server_of in opened.items():
        if name not in os.environ.get("OF", "memory store buildbot").split():
            continue
        for asked in ("draw", "read", "queue"):
            started_by[:] = ["valgrind", "--tool=callgrind", "--instr-atstart=no", f"--callgrind-out-file={os.getcwd()}/counted"]
            if name == "buildbot":
                if asked == "draw":
                    continue
                started_by.append("/usr/bin/python3")
            server = server_of()
            server.one_run()
            asked_for(server, 1, times, "kept", asked, 600)
            for whether in ("on", "off"):
                subprocess.run(["callgrind_control", f"--instr={whether}", str(server.process.pid)], check=True, capture_output=True)
                if whether == "on":
                    asked_for(server, 1, times, "kept", asked, 3600)
            server.stop()
            with open("counted", encoding="utf-8") as file:
                total = int(re.search(r"^totals: (\d+)$", file.read(), re.M)[1])
            print(f"instructions: {name}, {asked}: {total // times:,} a request, of {times} behind {times}", flush=True)
    started_by.clear()


def main():
    work = tempfile.mkdtemp(prefix="serve-", dir=".")
    os.chdir(work)
    try:
        machine()
        for part in parts:
            {"ours": ours, "buildbot": buildbot, "commits": commits, "idle": idle, "instructions": instructions}[part]()
        print(f"load at the end {os.getloadavg()[0]:.1f}")
    finally:
        for process in running:
            process.kill()
            process.wait()
        os.chdir("..")
        shutil.rmtree(work)


main()
