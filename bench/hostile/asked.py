#!/usr/bin/env python3
"""Usage: bench/hostile/asked.py PROGRAM [DRAWS [BYTES]]
What clients cost `PROGRAM serve` that ask much for little: an agent who draws the job that it holds, of 2,000 steps, again and again
(100 times where nothing is said), small heads on one link after another (64 MiB in all), messages with a token that nobody has (a
quarter of that), and 2,000 links that come and go. Prints the processor time and the memory of each. Status: 1 where the service has
ended or doesn't answer behind them, else 0."""
import hashlib
import http.client
import os
import re
import socket
import subprocess
import sys
import time

TOKEN = "abc"
STEPS = b"steps:\n" + b"".join(b"- script: echo %d\n" % number for number in range(2_000))


class Service:
    def __init__(self, program):
        words = [program, "serve", "--admin", hashlib.sha256(TOKEN.encode()).hexdigest(), "--listen", "127.0.0.1:0"]
        self.process = subprocess.Popen(words, stderr=subprocess.PIPE)
        self.port = int(self.process.stderr.readline().rsplit(b":", 1)[1])

    def link(self):
        return http.client.HTTPConnection("127.0.0.1", self.port, timeout=120)

    def seconds(self):
        with open(f"/proc/{self.process.pid}/stat", encoding="ascii") as it:
            fields = it.read().rsplit(")", 1)[1].split()
        return (int(fields[11]) + int(fields[12])) / os.sysconf("SC_CLK_TCK")

    def megabytes(self):
        with open(f"/proc/{self.process.pid}/status", encoding="ascii") as it:
            return int(re.search(r"VmHWM:\s+(\d+)", it.read())[1]) * 1.024e-3


def ask(link, method, target, content=b""):
    link.request(method, target, content, {"Authorization": "Bearer " + TOKEN})
    reply = link.getresponse()
    return reply.status, reply.read()


def drawn(service, draws):
    """Draws a job again and again."""
    link = service.link()
    before = service.seconds()
    queued = ask(link, "POST", "/texts", STEPS)
    queueing = service.seconds() - before
    before, size = service.seconds(), 0
    for _ in range(draws):
        size = len(ask(link, "POST", "/draw")[1])
    each = (service.seconds() - before) / draws * 1_000
    print(f"queued: {queued[0]}, {queueing:.2f} s; {draws} draws of {size:,} bytes: {each:.1f} ms each, {service.megabytes():.0f} MB", flush=True)


def send(link, what, left):
    """Sends a message again and again, and reads what comes, as far as both go without waiting: how many bytes each."""
    data, at, sent, got = what * max(1, 65_536 // len(what)), 0, 0, 0
    link.setblocking(False)
    try:
        while sent < left:
            moved = False
            try:
                count = link.send(data[at:])
                sent, at, moved = sent + count, (at + count) % len(data), True
            except BlockingIOError:
                pass
            try:
                piece = link.recv(1 << 20)
                if not piece:
                    break
                got, moved = got + len(piece), True
            except BlockingIOError:
                pass
            if not moved:
                time.sleep(0.001)
        link.setblocking(True)
        link.shutdown(socket.SHUT_WR)
        while piece := link.recv(1 << 20):
            got += len(piece)
    except OSError:
        pass
    return sent, got


def poured(service, what, name, total):
    """Sends so many bytes of a message, link after link."""
    before, sent, got, links = service.seconds(), 0, 0, 0
    while sent < total:
        with socket.create_connection(("127.0.0.1", service.port)) as link:
            pair = send(link, what, total - sent)
        sent, got, links = sent + pair[0], got + pair[1], links + 1
    print(f"{name}: {sent:,} bytes on {links} links, {got:,} bytes back, {service.seconds() - before:.2f} s, {service.megabytes():.0f} MB", flush=True)


def main(program, draws=100, total=64 << 20):
    service = Service(program)
    drawn(service, int(draws))
    poured(service, b"GET / HTTP/1.1\r\n\r\n", "small heads", int(total))
    unknown = b"POST /draw HTTP/1.1\r\nAuthorization: Bearer x\r\nContent-Length: 0\r\n\r\n"
    poured(service, unknown, "an unknown token", int(total) // 4)
    before = service.seconds()
    for _ in range(2_000):
        socket.create_connection(("127.0.0.1", service.port)).close()
    print(f"2,000 links that come and go: {service.seconds() - before:.2f} s, {service.megabytes():.0f} MB")
    try:
        status = ask(service.link(), "GET", "/runs/1")[0]
    except (OSError, http.client.HTTPException):
        status = 0
    ended = service.process.poll()
    service.process.kill()
    print("it goes on" if status == 200 else f"it is {ended}, status {status}")
    return 0 if status == 200 else 1


if __name__ == "__main__":
    if not 2 <= len(sys.argv) <= 4:
        print(__doc__, file=sys.stderr)
        sys.exit(64)
    sys.exit(main(*sys.argv[1:]))
