#!/usr/bin/env python3
"""Usage: bench/hostile/full.py PROGRAM
Puts a file of 262,144 bytes 512 times at `PROGRAM serve`, over links of a hundred puts each (a link may bring 64 MiB). Of such a put
the journal counts twice the bytes of the file and of its key, 524,318, and it may have 268,435,456: so 511 are answered with their
versions, and the 512th is 409 `journal.full` and leaves the 511th file as it is. A put of an empty file is taken again. The service
closes a link that has no whole message 10 seconds behind its last reply, as on a machine with much to do: then the put is asked again
over another one, at most ten times in all. Says what is otherwise, how often that was, and how much memory and processor time the
service took. Status: 1 where something is otherwise, else 0."""
import hashlib
import http.client
import os
import re
import subprocess
import sys

SIZE, TIMES, MOST, LINK, AGAIN = 262_144, 512, 268_435_456, 100, 10
KEY = len("r" + "refs/heads/m" + "/p")
TARGET = "/files/r/refs%2Fheads%2Fm/%2Fp"


class Service:
    def __init__(self, program):
        words = [program, "serve", "--admin", hashlib.sha256(b"abc").hexdigest(), "--listen", "127.0.0.1:0"]
        self.process = subprocess.Popen(words, stderr=subprocess.PIPE)
        self.port = int(self.process.stderr.readline().rsplit(b":", 1)[1])
        self.link, self.asked, self.closed = None, 0, 0

    def ask(self, method, content=b""):
        if self.asked % LINK == 0:
            self.link = http.client.HTTPConnection("127.0.0.1", self.port, timeout=300)
        self.asked += 1
        while True:
            try:
                self.link.request(method, TARGET, content, {"Authorization": "Bearer abc"})
                reply = self.link.getresponse()
                return reply.status, reply.read()
            except (http.client.HTTPException, ConnectionError):
                if self.process.poll() is not None or self.closed == AGAIN:
                    raise
                # What is acted on is answered, so this wasn't.
                self.closed += 1
                self.link.close()

    def taken(self):
        """The seconds of processor time and the megabytes that it took."""
        with open(f"/proc/{self.process.pid}/stat", encoding="ascii") as it:
            fields = it.read().rsplit(")", 1)[1].split()
        with open(f"/proc/{self.process.pid}/status", encoding="ascii") as it:
            most = int(re.search(r"VmHWM:\s+(\d+)", it.read())[1]) * 1.024e-3
        return (int(fields[11]) + int(fields[12])) / os.sysconf("SC_CLK_TCK"), most


def file(number):
    """The file's bytes the so many-th time."""
    return (b"%d " % number).ljust(SIZE, b"x")


def main(program):
    assert 2 * (SIZE + KEY) * (TIMES - 1) <= MOST < 2 * (SIZE + KEY) * TIMES
    service, wrong = Service(program), 0
    wanted = [(200, b'{"version":%d}' % number) for number in range(1, TIMES)] + [(409, b'{"rule":"journal.full"}')]
    got = [service.ask("PUT", file(number)) for number in range(1, TIMES + 1)]
    wanted += [(200, file(TIMES - 1)), (200, b'{"version":%d}' % TIMES), (200, b"")]
    got += [service.ask("GET"), service.ask("PUT", b""), service.ask("GET")]
    for number, (one, other) in enumerate(zip(got, wanted), 1):
        if one != other:
            wrong += 1
            print(f"reply {number}: {one[0]} {one[1][:100]}")
    seconds, megabytes = service.taken()
    service.process.kill()
    closed = f"; {service.closed} links were closed before the put had come" if service.closed else ""
    print(f"{TIMES} puts of {SIZE:,} bytes: {wrong} otherwise{closed}; {seconds:.2f} s, {megabytes:.0f} MB")
    return 1 if wrong else 0


if __name__ == "__main__":
    if len(sys.argv) != 2:
        print(__doc__, file=sys.stderr)
        sys.exit(64)
    sys.exit(main(sys.argv[1]))
