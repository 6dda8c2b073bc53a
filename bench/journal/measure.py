"""measure.py TOP: what run.sh prints."""
import glob, re, subprocess, sys, tempfile
from scripts import JOURNAL, VIEWS, as_script, groups, standing, stages_alone

top = sys.argv[1]
ENDED = int(sys.argv[2]) if len(sys.argv) > 2 else 100_000
RUNS = 100_000
PROGRAM = "cases_journal"
# Of the journal and of the views: a function that some look-ups call, each once; the first words of those that don't; the look-ups;
# runs' stages; a word by which that function is called and finds nothing. The journal's look-ups need no plans, and runs without a
# stage are never open.
PARTS = {
    "the journal": (f"{PROGRAM}::settings::look_at_setting", lambda word: word[-1:] != "?" or word in BESIDE, JOURNAL, "", "nothing?"),
    "the views": (f"{PROGRAM}::standing::look_at_view", lambda word: word[-1:] != "?" or word == "open?", VIEWS, " A B:0 C:1", "view?"),
}
BESIDE = {line.split()[0] for line in JOURNAL[:13] + JOURNAL[-5:]}


def play(script, before=()):
    """Runs the program of cases over a script."""
    with tempfile.TemporaryFile() as file:
        file.write(script.encode())
        file.seek(0)
        command = [*before, f"{top}/crates/{PROGRAM}/out/{PROGRAM}"]
        subprocess.run(command, stdin=file, check=True, stdout=subprocess.DEVNULL, stderr=subprocess.DEVNULL)


def dumped(marker, script):
    """The instructions between two calls of the marker, from the first one on."""
    with tempfile.TemporaryDirectory() as room:
        play(script, ["valgrind", "--tool=callgrind", f"--callgrind-out-file={room}/out", f"--dump-before={marker}"])
        numbered = sorted((int(path.rsplit(".", 1)[1]), path) for path in glob.glob(f"{room}/out.*"))
        counts = [int(re.search(r"^(?:summary|totals): (\d+)", open(path).read(), re.M)[1]) for _, path in numbered]
    return counts[1:]


def counted(part, ended):
    """The instructions of a line of each group: reading it, what it does, and writing what was found."""
    marker, is_beside, look_ups, plan, nothing = PARTS[part]
    lines, calls = list(standing(ended, plan)), []
    lines.append(f"{nothing} 0")
    for name, group in groups(look_ups, plan, nothing):
        lines += [*group, f"{nothing} 0"]
        calls.append((name, len(group), 1 + sum(not is_beside(line.split()[0]) for line in group)))
    counts = iter(dumped(marker, as_script(lines)))
    told, none = {}, 0
    for name, many, dumps in calls:
        cost = sum(next(counts) for _ in range(dumps))
        if many:
            told[name] = (cost - none) / many
        else:
            none = cost
    return told


def most_held(script):
    """The most kilobytes that the program held."""
    code = "import resource, subprocess, sys; subprocess.run(sys.argv[1], stdin=sys.stdin, stdout=subprocess.DEVNULL, check=True); " \
           "print(resource.getrusage(resource.RUSAGE_CHILDREN).ru_maxrss)"
    with tempfile.TemporaryFile() as file:
        file.write(script.encode())
        file.seek(0)
        command = [sys.executable, "-c", code, f"{top}/crates/{PROGRAM}/out/{PROGRAM}"]
        return int(subprocess.run(command, stdin=file, check=True, capture_output=True).stdout)


facts = 12 * RUNS
held, unheld = (most_held(as_script(stages_alone(RUNS, *words))) for words in (("start", "end"), ("stant", "enk")))
print(f"memory: {(held - unheld) * 1024 / facts:.1f} bytes a fact at most, of {facts} facts that hold no text", flush=True)
for part in PARTS:
    alone, beside = counted(part, 0), counted(part, ENDED)
    print(f"of {part}: instructions of a line beside 100 open runs, and beside {ENDED} ended ones besides")
    for name, cost in beside.items():
        few, many = alone[name] - alone["asks for nothing"], cost - alone["asks for nothing"]
        print(f"{name}: {alone[name]:.0f} and {cost:.0f}; less what a line takes that asks for nothing {few:.0f} and {many:.0f}", flush=True)
