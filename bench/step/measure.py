"""Usage: measure.py PROGRAM ENDED. Prints what requests cost in `pipectl replay`, as run.sh says."""
import hashlib
import json
import os
import re
import subprocess
import sys
import tempfile
import threading

token = "abc"


def digest(text):
    return hashlib.sha256(text.encode()).hexdigest()


def message(front, body=b"", by=token):
    body = body if isinstance(body, bytes) else json.dumps(body).encode()
    length = f"Content-Length: {len(body)}\r\n" if not front.startswith("GET") else ""
    return f"{front} HTTP/1.1\r\nAuthorization: Bearer {by}\r\n{length}\r\n".encode() + body


class Session:
    """A replay under callgrind, which counts nothing until it is told to."""

    def __init__(self, program, out):
        words = ["valgrind", "--tool=callgrind", f"--callgrind-out-file={out}", "--instr-atstart=no"]
        words += [program, "replay", "--admin", digest(token)]
        self.process = subprocess.Popen(words, stdin=subprocess.PIPE, stdout=subprocess.PIPE, stderr=subprocess.DEVNULL)
        self.statuses, self.more = [], threading.Condition()
        threading.Thread(target=self.read, daemon=True).start()

    def read(self):
        rest = b""
        for piece in iter(lambda: self.process.stdout.read1(65536), b""):
            *lines, rest = (rest + piece).split(b"\r\n")
            found = [line[line.index(b"HTTP/1.1 ") + 9 :][:3] for line in lines if b"HTTP/1.1 " in line]
            with self.more:
                self.statuses += found
                self.more.notify()

    def says(self, messages):
        """Sends messages, and waits until each has its reply's head; returns the last status."""
        wanted = len(self.statuses) + len(messages)
        self.process.stdin.write(b"".join(messages))
        self.process.stdin.flush()
        with self.more:
            assert self.more.wait_for(lambda: len(self.statuses) >= wanted, 7200)
        return self.statuses[-1]

    def counts(self, whether):
        """From now on it is counted, or not any more: what ends with the process isn't."""
        command = ["callgrind_control", f"--instr={'on' if whether else 'off'}", str(self.process.pid)]
        subprocess.run(command, check=True, capture_output=True)

    def ends(self):
        self.process.stdin.close()
        assert self.process.wait() == 0


def counted(program, before, messages, wanted):
    """The instructions of messages behind others, by function with all that it calls, where the build hasn't put it into its
    callers; the last one's reply has this status. With SHOWN=N the dearest N are told for each message."""
    with tempfile.TemporaryDirectory() as folder:
        out = os.path.join(folder, "out")
        session = Session(program, out)
        session.says(before)
        session.counts(True)
        last = session.says(messages)
        session.counts(False)
        assert last == wanted, last
        session.ends()
        command = ["callgrind_annotate", "--inclusive=yes", "--threshold=100", out]
        lines = subprocess.run(command, capture_output=True, text=True).stdout.splitlines()
    found = {}
    for line in lines:
        one = re.match(r" *([\d,]+) \([ \d.]+%\) +\S*:(\S.*?) \[", line)
        if one:
            found.setdefault(one.group(2), int(one.group(1).replace(",", "")))
    for name in list(found)[: int(os.environ.get("SHOWN", "0"))]:
        print(f"    {found[name] // len(messages):>12} {name}", file=sys.stderr)
    return found


def each(program, before, request, wanted, times=10):
    """The instructions of one of so many equal requests behind others."""
    return max(counted(program, before, [request] * times, wanted).values()) // times


def text(stages, jobs):
    lines = ["stages:"]
    for stage in range(stages):
        lines += [f"- stage: s{stage}", "  jobs:"]
        for job in range(jobs):
            lines += [f"  - job: j{job}", "    steps:", "    - script: make"]
    return "\n".join(lines).encode() + b"\n"


queue = message("POST /texts", text(3, 4))
draw = message("POST /draw")


def taken_jobs():
    """100 runs whose first stages' 400 jobs are taken, each by an agent of its own."""
    messages = [queue] * 100
    for name in (f"agent-{number}" for number in range(400)):
        messages.append(message(f"PUT /principals/{name}", {"roles": ["Agent"], "tokenSha256": digest(name)}))
        messages.append(message(f"PUT /agents/{name}", {"pool": "Default", "capabilities": {}}))
        messages.append(message("POST /draw", by=name))
    return messages


def waiting_stages():
    """100 runs whose first stages wait for an approval."""
    approval = {"kind": "approval", "approvers": ["ann"], "least": 1, "requester": False}
    guard = {"pipelines": "all", "exclusive": False, "checks": [approval]}
    return [message("PUT /resources/pool/Default", guard)] + [queue] * 100


def ended_runs(many):
    messages = []
    for number in range(1, many + 1):
        messages += [message("POST /texts", text(1, 1)), draw]
        messages.append(message(f"POST /runs/{number}/stages/s0/jobs/j0/report", {"result": "Succeeded", "outputs": {}}))
    return messages


def draws(program, ended):
    for name, before in (("taken", taken_jobs()), ("waiting", waiting_stages())):
        alone = each(program, before, draw, b"204")
        print(f"a draw with 100 open runs, {name}: {alone}", flush=True)
        if ended:
            beside = each(program, ended_runs(ended) + before, draw, b"204")
            print(f"the same beside {ended} ended runs: {beside}, ratio {beside / alone:.2f}", flush=True)


def puts(program):
    def put(number):
        return message(f"PUT /files/app/refs%2Fheads%2Fmain/%2F{number}.yml", b"steps:\n- script: make\n")

    few = each(program, [put(0)] * 1000, put(0), b"200", times=100)
    many = each(program, [put(number) for number in range(1000)], put(0), b"200", times=100)
    print(f"a put of a file: {few} after 1,000 puts of it, {many} after puts of 1,000 files, ratio {many / few:.2f}", flush=True)


def queueing(program):
    found = counted(program, [queue], [queue] * 10, b"201")
    whole, inside = max(found.values()) // 10, found.get("compile_within")
    print(f"queueing a text: {whole}, of which {inside and inside // 10} compile it", flush=True)


def reading(program):
    large, read = message("POST /texts", text(1, 256)), message("GET /runs/1")
    found = counted(program, [large, read], [read] * 10, b"200")
    whole = max(found.values()) // 10
    wire = whole - found["prepare"] // 10
    print(f"reading a run of 256 jobs: {whole}, of which {wire} read the message and spell the reply, ratio {whole / wire:.2f}", flush=True)


def main(words):
    program, ended = words[0], int(words[1])
    puts(program)
    queueing(program)
    reading(program)
    draws(program, ended)


if __name__ == "__main__":
    main(sys.argv[1:])
