"""Counts, by callgrind, what opening a service of kept rows takes beside decoding them and one compile, and what the rows of its state
take beside writing the records: `opens.py PROGRAM TOP [RUNS..]`. The runs are ended ones of the example's pipeline (examples/shop)."""
import os, re, subprocess, sys, tempfile

from ended import rows, text

program, top, *counts = sys.argv[1:]
counts = [int(it) for it in counts] or [100, 1000, 10000]

def given(runs):
    all_rows = rows(runs, top)
    return b"".join(bytes([table]) + text(place) + text(body) for table, place, body in all_rows), len(all_rows)


def ran(words, path):
    with open(path, "rb") as file: done = subprocess.run(words, stdin=file, stdout=subprocess.PIPE, stderr=subprocess.PIPE)
    if done.returncode: sys.exit(f"{' '.join(words)}: status {done.returncode}\n{done.stderr.decode()[-2000:]}")
    return done.stderr.decode()


def instructions(word, path):
    told = ran(["valgrind", "--tool=callgrind", "--callgrind-out-file=/dev/null", program, word], path)
    return int(re.search(r"Collected : (\d+)", told).group(1))


def memory(word, path):
    """The most memory that a run held, in bytes."""
    with open(path, "rb") as file: child = subprocess.Popen([program, word], stdin=file)
    _, child.returncode, used = os.wait4(child.pid, 0)
    if child.returncode: sys.exit(f"{program} {word}: status {child.returncode}")
    return used.ru_maxrss * 1024


def main():
    with tempfile.TemporaryDirectory() as work:
        for runs in counts:
            path = f"{work}/rows"
            bytes_of, many = given(runs)
            open(path, "wb").write(bytes_of)
            took = {word: instructions(word, path) for word in ("given", "told", "decoded", "compiled", "opened", "rows", "records", "encoded")}
            told = took["told"] - took["given"]
            decoded, compiled, opened = (took[word] - took["told"] for word in ("decoded", "compiled", "opened"))
            of_state, written = took["rows"] - took["opened"], took["encoded"] - took["records"]
            print(f"{runs} runs, {many} rows of {len(bytes_of):,} bytes: telling {told:,}, decoding {decoded:,}, one compile {compiled:,}, "
                  f"opening {opened:,}, {opened / (decoded + compiled):.2f} times decoding and one compile"
                  f" ({(told + opened) / (decoded + compiled):.2f} with the telling); rows of the state {of_state:,}, "
                  f"writing the records {written:,}, {of_state / written:.2f} times; memory given {memory('given', path) / 1e6:.0f} MB, "
                  f"opened {memory('opened', path) / 1e6:.0f} MB", flush=True)


main()
