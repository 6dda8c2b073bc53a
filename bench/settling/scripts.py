"""Writes a script for `cases_settling`: so many open runs of three stages, settled once, and then so many times more."""
import sys

shape, runs, times = sys.argv[1], int(sys.argv[2]), int(sys.argv[3])

DEPLOYMENT = "{deployment: D, environment: prod, strategy: {runOnce: {deploy: {steps: []}}}}"
FIRST = "{job: J, steps: []}" if shape == "running" else DEPLOYMENT
BEHAVIOUR = "lockBehavior: sequential\n" if shape == "locked" else ""
# The pool is there until it is set; the environment is set here.
RESOURCE = {
    "running": "kind environment\nname prod\npipelines *",
    "checked": "kind environment\nname prod\npipelines *\ncheck\nkind approval\napprovers alice\nleast 1\nrequester false\ntimeoutMinutes 43200",
    "locked": "kind environment\nname prod\npipelines *\nexclusive true",
}[shape]

print(f"""Open runs of three stages.

%%% pipeline three
{BEHAVIOUR}stages:
- {{stage: A, jobs: [{FIRST}]}}
- {{stage: B, jobs: [{{job: J, steps: []}}]}}
- {{stage: C, jobs: [{{job: J, steps: []}}]}}
%%% resource prod
{RESOURCE}

%%% case {shape}
at 1000
set prod""")
for run in range(1, runs + 1):
    print(f"queue {run} three alice")
print("settle")
if shape == "running":
    for run in range(1, runs + 1):
        print(f"take {run}.0.0 agent{run}")
for _ in range(times):
    print("settle")
