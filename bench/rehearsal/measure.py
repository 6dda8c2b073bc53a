"""measure.py PROGRAM [RUNS..]: what run.sh prints."""
import re, resource, subprocess, sys, tempfile, time

program = sys.argv[1]
RUNS = [int(word) for word in sys.argv[2:]] or [1, 2, 3, 4, 8, 64, 512, 4096]
# Those whose instructions are counted, where they are among them; the second are to be at most ten times the first.
COUNTED = (512, 4096)
wrong = 0


def wanted(runs):
    """The line, as the input alone tells it. The first run has started before a second one comes. Of the later ones, each of an
    odd number isn't sequential and gives way to the next one, but for the last of all; of the others each job is reported: one to
    four legs of the first stage, and the job of the second."""
    gave_way = set(range(3, runs, 2))
    jobs = sum(1 + number % 4 + 1 for number in range(1, runs + 1) if number not in gave_way)
    return f"runs {runs} jobs {jobs} superseded {len(gave_way)}\n"


def rehearsed(runs, before=()):
    """What the program writes and how it ends, what it says on standard error, and the processor's seconds that it took."""
    with tempfile.TemporaryFile() as told:
        started = resource.getrusage(resource.RUSAGE_CHILDREN).ru_utime
        words = [*before, program, "rehearse", "--runs", str(runs)]
        done = subprocess.run(words, stdin=subprocess.DEVNULL, stdout=subprocess.PIPE, stderr=told)
        took = resource.getrusage(resource.RUSAGE_CHILDREN).ru_utime - started
        told.seek(0)
        return done.stdout.decode(), done.returncode, told.read().decode(), took


counts = {}
for runs in RUNS:
    began = time.monotonic()
    line, status, _, took = rehearsed(runs)
    clock = time.monotonic() - began
    as_wanted = (line, status) == (wanted(runs), 0)
    wrong += not as_wanted
    print(f"{line.strip() or 'nothing'}, status {status}: {'as wanted' if as_wanted else 'WRONG, wanted ' + wanted(runs).strip()};"
          f" {took:.2f} s of a processor, {clock:.2f} s by the clock", flush=True)
for runs in COUNTED:
    if runs in RUNS:
        _, _, told, _ = rehearsed(runs, ["valgrind", "--tool=callgrind", "--callgrind-out-file=/dev/null"])
        counts[runs] = int(re.search(r"Collected : (\d+)", told)[1])
        print(f"{runs} runs: {counts[runs]} instructions", flush=True)
if len(counts) == 2:
    print(f"ratio {counts[COUNTED[1]] / counts[COUNTED[0]]:.1f}")
sys.exit(wrong != 0)
