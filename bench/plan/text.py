"""Prints a pipeline of less than 262,144 bytes: `steps`, 64 stages, 256 jobs and 2,000 steps with 20 inputs each;
`stages`, 64 stages that each wait for all before them; `jobs`, 256 jobs that each wait for 100 names; `legs`, jobs of
100, 100 and 56 legs, the later two of which wait for all before them, 1,000 times."""

import sys


def steps():
    inputs = ",".join(f"{chr(97 + i)}: {i % 10}" for i in range(20))
    print("stages:")
    step = 0
    for stage in range(64):
        print(f"- stage: S{stage}\n  jobs:")
        for job in range(4):
            print(f"  - job: J{job}\n    steps:")
            for _ in range((2000 - step) // (256 - (4 * stage + job))):
                print(f"    - {{task: T, inputs: {{{inputs}}}}}")
                step += 1


def stages():
    print("stages:")
    for stage in range(64):
        before = ", ".join(f"S{other}" for other in range(stage))
        print(f"- {{stage: S{stage}, dependsOn: [{before}], jobs: [{{job: J, steps: [{{script: x}}]}}]}}")


def jobs():
    print("jobs:")
    for job in range(256):
        before = ", ".join(f"J{other % job}" for other in range(100)) if job else ""
        print(f"- {{job: J{job}, dependsOn: [{before}], steps: [{{script: x}}]}}")


def legs():
    print("jobs:")
    for job, count in enumerate((100, 100, 56)):
        before = ", ".join(f"J{other % job}" for other in range(1000)) if job else ""
        print(f"- {{job: J{job}, dependsOn: [{before}], strategy: {{parallel: {count}}}, steps: [{{script: x}}]}}")


{"steps": steps, "stages": stages, "jobs": jobs, "legs": legs}[sys.argv[1]]()
