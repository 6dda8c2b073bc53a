#!/usr/bin/env python3
"""Usage: bench/store/stops.py PIPECTL [TEXTS]
Stops `replay --store` at each write of each of its files (stop.c, which it compiles with cc and preloads), and opens the store again.
The messages are so many texts (three where nothing is said). A write is a part of a file written, cut or synced; the stop comes before
it, behind half of it, or behind it, once from no store and once from one that has a run. Then the runs are those that were
acknowledged, and at most one more, each of them whole, and a fourth text gets the next number: over the files as they were written,
and over what of them was synced, all that was written later being lost. Says what is otherwise.
Status: 1 where something is, else 0."""
import hashlib
import json
import os
import re
import shutil
import subprocess
import sys
import tempfile

HERE = os.path.dirname(os.path.realpath(__file__))
ADMIN = hashlib.sha256(b"abc").hexdigest()
TEXT = b"steps:\n- script: echo hi\n"
PARTS = ("rows", "rows-wal")


def message(method, target, content=b""):
    head = f"{method} {target} HTTP/1.1\r\nAuthorization: Bearer abc\r\nContent-Length: {len(content)}\r\n\r\n"
    return head.encode() + content


def replies(data):
    """The status and content of each whole reply."""
    found = []
    while b"\r\n\r\n" in data:
        head, _, rest = data.partition(b"\r\n\r\n")
        length = int((re.search(rb"(?i)content-length: (\d+)", head) or [0, b"0"])[1])
        if len(rest) < length:
            break
        found.append((int(head.split()[1]), json.loads(rest[:length] or b"null")))
        data = rest[length:]
    return found


class Tries:
    def __init__(self, program, texts, folder):
        self.program, self.texts, self.folder, self.wrong, self.more, self.count = program, texts, folder, 0, 0, 0
        self.stopper = f"{folder}/stop.so"
        subprocess.run(["cc", "-O1", "-shared", "-fPIC", "-o", self.stopper, f"{HERE}/stop.c", "-ldl"], check=True)

    def replay(self, path, data, **more):
        env = dict(os.environ, **({"LD_PRELOAD": self.stopper, "STOPPED": path, "CALLS": f"{self.folder}/calls", **more} if more else {}))
        words = [self.program, "replay", "--admin", ADMIN, "--store", path]
        end = subprocess.run(words, input=data, stdout=subprocess.PIPE, stderr=subprocess.DEVNULL, env=env, timeout=60)
        return end.returncode, replies(end.stdout)

    def new(self, name, begun):
        """A folder with the files of a beginning."""
        folder = f"{self.folder}/{name}"
        shutil.rmtree(folder, ignore_errors=True)
        shutil.copytree(begun, folder) if begun else os.mkdir(folder)
        return f"{folder}/rows"

    def runs(self, path):
        """How many runs an opening finds, and that the next text is the one behind them."""
        status, told = self.replay(path, b"".join(message("GET", f"/runs/{n}") for n in range(1, 9)) + message("POST", "/texts", TEXT))
        runs = [one[0] for one in told].count(200)
        whole = all(one[1]["run"] == n and [it["name"] for it in one[1]["stages"]] == ["__default"] for n, one in enumerate(told[:runs], 1))
        wanted = [200] * runs + [404] * (8 - runs) + [201]
        return runs if whole and status == 0 and [one[0] for one in told] == wanted and told[-1][1] == {"run": runs + 1} else (status, told)

    def judge(self, name, acknowledged, path):
        found = self.runs(path)
        self.count += 1
        self.more += found == acknowledged + 1
        if found not in (acknowledged, acknowledged + 1):
            self.wrong += 1
            print(f"{name}: {acknowledged} runs were acknowledged, {found} are there", flush=True)

    def lose(self, path, begun):
        """A store of what was synced alone."""
        lost = self.new("lost", None)
        for part in PARTS:
            file = f"{os.path.dirname(path)}/{part}"
            first = f"{begun}/{part}" if begun else ""
            kept = file + ".synced" if os.path.exists(file + ".synced") else first if os.path.exists(first) else ""
            if kept:
                shutil.copy(kept, f"{os.path.dirname(lost)}/{part}")
            elif os.path.exists(file):
                open(f"{os.path.dirname(lost)}/{part}", "wb").close()
        return lost

    def all(self, begun, before):
        """Stops at each write from a beginning that has so many runs. Returns how many writes there are."""
        data, calls, at = message("POST", "/texts", TEXT) * self.texts, 1, 0
        while at <= calls:
            for kept in ("none", "half", "whole") if at else ("none",):
                path = self.new("now", begun)
                status, told = self.replay(path, data, STOP=str(at), KEPT=kept)
                acknowledged = before + sum(one[0] == 201 for one in told)
                if not at:
                    with open(f"{self.folder}/calls", encoding="ascii") as file:
                        calls = int(file.read())
                if status != (77 if at else 0):
                    self.wrong += 1
                    print(f"write {at}, {kept}: status {status}")
                lost = self.lose(path, begun)
                self.judge(f"write {at}, {kept}, as it was synced", acknowledged, lost)
                for part in PARTS:
                    if os.path.exists(f"{path[:-4]}{part}.synced"):
                        os.remove(f"{path[:-4]}{part}.synced")
                self.judge(f"write {at}, {kept}, as it was written", acknowledged, path)
            at += 1
        return calls


def main(program, texts=3):
    with tempfile.TemporaryDirectory(prefix="stops-", dir=".") as folder:
        tries = Tries(os.path.abspath(program), int(texts), os.path.abspath(folder))
        first = tries.all(None, 0)
        path = tries.new("begun", None)
        # Its log has the run: the program is stopped behind its first reply.
        process = subprocess.Popen([tries.program, "replay", "--admin", ADMIN, "--store", path], stdin=subprocess.PIPE, stdout=subprocess.PIPE)
        process.stdin.write(message("POST", "/texts", TEXT))
        process.stdin.flush()
        process.stdout.read(84)
        process.kill()
        process.communicate()
        second = tries.all(os.path.dirname(path), 1)
        print(
            f"{first} writes from no store, {second} from one with a run: {tries.count} openings, "
            f"{tries.more} times one run more than was acknowledged; {tries.wrong} otherwise"
        )
        return 1 if tries.wrong else 0


if __name__ == "__main__":
    if len(sys.argv) not in (2, 3):
        print(__doc__, file=sys.stderr)
        sys.exit(64)
    sys.exit(main(*sys.argv[1:]))
