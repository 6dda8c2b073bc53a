#!/usr/bin/env python3
"""Usage: bench/hostile/served.py PROGRAM STACK [PART-OF-A-NAME]..
Queues a run of each small shape (shapes.py) at `PROGRAM serve`, as an Author can: its files are put, its root file is set as a
pipeline, and it is queued. STACK is the limit of the stack with which the program starts, in KiB, or `unlimited`. Prints how often each
reply came, the most processor time of a queueing and the most memory; and a line for each shape behind which the program had ended, with
the signal (it is started again then). Status: 1 where there was one, else 0."""
import collections
import hashlib
import http.client
import json
import os
import re
import resource
import subprocess
import sys
import time
from urllib.parse import quote

from shapes import ALL

TOKEN = "admin"


class Service:
    def __init__(self, program, stack):
        words = [program, "serve", "--admin", hashlib.sha256(TOKEN.encode()).hexdigest(), "--listen", "127.0.0.1:0"]
        limit = resource.RLIM_INFINITY if stack == "unlimited" else int(stack) * 1024
        self.process = subprocess.Popen(
            words, stderr=subprocess.PIPE, preexec_fn=lambda: resource.setrlimit(resource.RLIMIT_STACK, (limit, limit))
        )
        self.port = int(self.process.stderr.readline().rsplit(b":", 1)[1])

    def ask(self, method, target, content=b""):
        link = http.client.HTTPConnection("127.0.0.1", self.port, timeout=300)
        link.request(method, target, content, {"Authorization": "Bearer " + TOKEN})
        reply = link.getresponse()
        told = reply.status, reply.read()
        link.close()
        return told

    def seconds(self):
        with open(f"/proc/{self.process.pid}/stat", encoding="ascii") as it:
            fields = it.read().rsplit(")", 1)[1].split()
        return (int(fields[11]) + int(fields[12])) / os.sysconf("SC_CLK_TCK")

    def megabytes(self):
        with open(f"/proc/{self.process.pid}/status", encoding="ascii") as it:
            return int(re.search(r"VmHWM:\s+(\d+)", it.read())[1]) // 1024


def files_of(bundle):
    """The files of a bundle: repository, ref, path and text."""
    for file in re.split(r"(?m)^%%% ", bundle)[1:]:
        head, _, text = file.partition("\n")
        yield *head.split(" ", 2), text


def queue(service, bundle):
    """Queues a run of the bundle: the reply, and the processor time that it took. None where a file is refused."""
    files = list(files_of(bundle))
    for repo, ref, path, text in files:
        target = "/files/" + "/".join(quote(part, safe="") for part in (repo, ref, path))
        if service.ask("PUT", target, text.encode())[0] != 200:
            return None
    repo, ref, path, _ = files[0]
    service.ask("PUT", "/pipelines/p", json.dumps({"repo": repo, "path": path}).encode())
    before = service.seconds()
    status, content = service.ask("POST", "/runs", json.dumps({"pipeline": "p", "ref": ref, "parameters": {}}).encode())
    return status, json.loads(content).get("rule", "queued"), service.seconds() - before


def main(program, stack, *parts):
    service, replies, slowest, most, ended = Service(program, stack), collections.Counter(), (0, ""), 0, 0
    for name, written, _, small, _ in ALL:
        bundle = written() if small and (not parts or any(part in name for part in parts)) else ()
        if not isinstance(bundle, str):
            continue
        try:
            told = queue(service, bundle)
        except (OSError, http.client.HTTPException):
            time.sleep(0.5)
            if service.process.poll() is None:
                raise
            print(f"{name}: signal {-service.process.poll()}", flush=True)
            service, ended = Service(program, stack), ended + 1
            continue
        if told:
            replies[told[:2]] += 1
            slowest, most = max(slowest, (told[2], name)), max(most, service.megabytes())
    service.process.kill()
    told = ", ".join(f"{count} times {status} {rule}" for (status, rule), count in sorted(replies.items()))
    print(f"stack {stack}: {told}; at most {slowest[0]:.2f} seconds ({slowest[1]}) and {most} MB; ended {ended} times")
    return 1 if ended else 0


if __name__ == "__main__":
    if len(sys.argv) < 3:
        print(__doc__, file=sys.stderr)
        sys.exit(64)
    sys.exit(main(*sys.argv[1:]))
