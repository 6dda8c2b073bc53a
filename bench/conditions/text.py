"""Prints a pipeline of 64 stages and 256 jobs, the largest that there is, whose last stage waits for the one before it:
`even`, 4 jobs in each stage, and `wide`, 193 jobs in the stage before the last: the last stage's condition asks for one
output of one job; `job`, as wide, but its first job's condition asks for one; `whole`, as wide, but the last stage's
condition asks for all outputs of the stage before it."""

import sys

CONDITIONS = {
    "even": "eq(dependencies.S62.outputs['J0.step.v0'], 'value')",
    "wide": "eq(dependencies.S62.outputs['J0.step.v0'], 'value')",
    "job": "eq(stageDependencies.S62.J0.outputs['step.v0'], 'value')",
    "whole": "containsValue(dependencies.S62.outputs, 'value')",
}


def jobs_of(name, stage):
    if name == "even":
        return 4
    return 193 if stage == 62 else 1


def pipeline(name):
    print("stages:")
    for stage in range(64):
        last = stage == 63
        print(f"- stage: S{stage}")
        if last and name != "job":
            print(f"  condition: {CONDITIONS[name]}")
        print("  jobs:")
        for job in range(jobs_of(name, stage)):
            print(f"  - job: J{job}")
            if last and name == "job":
                print(f"    condition: {CONDITIONS[name]}")
            print("    steps: []")


pipeline(sys.argv[1])
