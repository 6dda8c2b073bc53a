"""Scripts of facts for the program of cases `cases_journal`, whose form stands at the head of its cases."""

OPEN = 100
FIRST_ENDED = 100_001
FIRST_OPEN = 900_001
JOURNAL = ("queued? {r}", "run? {r}", "canceled? {r}", "started? {r} 0", "ended? {r} 0", "decision? {r} 1 ann", "decisions? {r} 1",
           "taken? {r} 0 1", "finished? {r} 0 0", "ending? {r} 0 0", "holder? {r} 0 1", "held? agent{r}", "outputs? {r} 0 0",
           "file? /a.yml", "pipeline? ci", "resource? environment e", "resource-set? environment e", "principal? ann",
           "principal-set? ann", "token? a", "agent? linux", "agent-set? linux", "fact? 4", "length?", "last-run?", "last-moment?",
           "version?")
VIEWS = ("open?", "view? {r}", "ready? {r} 1", "awaits? {r} 1", "since? {r} 1", "checks? {r} 1", "job-ready? {r} 0 1",
         "job-awaits? {r} 0 1")


def ended_run(run, plan):
    """The thirteen facts of a run of three stages with a job each."""
    yield f"queue {run} ci ann{plan}"
    for stage in range(3):
        yield from (f"start {run} {stage}", f"take {run} {stage} 0 linux", f"finish {run} {stage} 0 succeeded -",
                    f"end {run} {stage} succeeded -")


def open_run(run, plan):
    """A run whose first stage has a job that ended, with an output, and one that an agent of its own holds."""
    return [f"queue {run} ci ann{plan}", f"decide {run} 1 ann yes", f"start {run} 0", f"take {run} 0 0 linux",
            f"finish {run} 0 0 succeeded - step.key text", f"take {run} 0 1 agent{run}"]


def standing(ended, plan):
    """So many ended runs, each installed when it ends, and the open ones behind them. Runs share no plan."""
    yield from ("put /a.yml x", "pipeline ci /ci.yml", "resource environment e shared", "principal ann a", "agent linux Default")
    for run in range(FIRST_ENDED, FIRST_ENDED + ended):
        yield from ended_run(run, plan)
        yield "install"
    for run in range(FIRST_OPEN, FIRST_OPEN + OPEN):
        yield from open_run(run, plan)
    yield "install"


def groups(look_ups, plan, nothing):
    """Lines that are counted together: none, what asks for nothing, by that word, facts of two runs more, and each look-up once for
    each open run."""
    runs = range(FIRST_OPEN, FIRST_OPEN + OPEN)
    more = [list(ended_run(FIRST_OPEN + OPEN + at, plan)) for at in range(2)]
    yield "", []
    yield "asks for nothing", [f"{nothing} 0 0 0"] * OPEN
    yield "a run is queued", [lines[0] for lines in more]
    yield "another fact", [line for lines in more for line in lines[1:]]
    yield "back", ["back"]
    for look_up in look_ups:
        yield look_up.split()[0], [look_up.format(r=run) for run in runs]


def stages_alone(runs, start="start", end="end"):
    """Facts that share nothing and hold no text: starts and ends of six stages of so many runs."""
    for run in range(runs):
        for stage in range(6):
            yield f"{start} {run} {stage}"
            yield f"{end} {run} {stage} succeeded -"


def as_script(lines):
    return "\n%%% case measured\n" + "\n".join(lines) + "\n"
