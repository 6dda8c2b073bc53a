"""Prints a pipeline of 64 stages, 256 jobs and 2,000 steps with 20 inputs each, of less than 262,144 bytes."""

INPUTS = ",".join(f"{chr(97 + i)}: {i % 10}" for i in range(20))
print("stages:")
step = 0
for stage in range(64):
    print(f"- stage: S{stage}\n  jobs:")
    for job in range(4):
        print(f"  - job: J{job}\n    steps:")
        for _ in range((2000 - step) // (256 - (4 * stage + job))):
            print(f"    - {{task: T, inputs: {{{INPUTS}}}}}")
            step += 1
