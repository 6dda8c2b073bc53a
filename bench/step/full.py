"""Usage: full.py PROGRAM. Queues a run of a file of 262,144 bytes until the journal is full, and says where it is: the texts of
all entries may have 268,435,456 bytes. Takes some ten seconds of a processor and 300 MB."""
import re
import subprocess
import sys

from measure import digest, message, token

MOST, LENGTH, TIMES = 268435456, 262144, 1030
FRONT = b"steps:\n- script: make\n# "
KEY = len("app") + len("refs/heads/main") + len("/ci.yml")


def fits():
    """How many runs fit behind the put of the file and of the pipeline, by the rule of an entry's size."""
    before = 2 * (KEY + LENGTH) + 2 * (len("ci") + len("app") + len("/ci.yml"))
    entry = len("ci") + len("refs/heads/main") + len("ci") + len("admin") + KEY + KEY + LENGTH
    return (MOST - before) // entry


def main(program):
    queue = message("POST /runs", {"pipeline": "ci", "ref": "refs/heads/main", "parameters": {}})
    messages = [message("PUT /files/app/refs%2Fheads%2Fmain/%2Fci.yml", FRONT + b"x" * (LENGTH - len(FRONT)))]
    messages += [message("PUT /pipelines/ci", {"repo": "app", "path": "/ci.yml"}), *[queue] * TIMES]
    last = fits()
    messages += [message(f"GET /runs/{last}"), message(f"GET /runs/{last + 1}"), message("PUT /agents/a", {"pool": "P", "capabilities": {}})]
    done = subprocess.run([program, "replay", "--admin", digest(token)], input=b"".join(messages), capture_output=True, check=True)
    replies = re.findall(rb"HTTP/1\.1 (\d+)[^\r]*\r\n(?:[^\r]+\r\n)*\r\n([^H]*)", done.stdout)
    assert len(replies) == len(messages), len(replies)
    queued = sum(1 for status, _ in replies[2 : 2 + TIMES] if status == b"201")
    refused = {content for status, content in replies[2 + queued : 2 + TIMES]}
    print(f"{queued} runs are queued, where {last} fit; behind them {refused}; the last three replies: {replies[-3:]}")


if __name__ == "__main__":
    main(sys.argv[1])
