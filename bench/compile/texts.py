"""Writes bundles into a folder, each also as its files alone, and their names to standard output."""

import os
import sys

folder, shop = sys.argv[1:]
STEP = "- script: a\n"


def write(name, files):
    """A bundle of files, each a key and a text, and the same files for the program that reads them."""
    bundle = "".join(f"%%% {key}\n{text}" for key, text in files)
    parts = [files[0][1], *(f"%file {key.split()[-1]}\n{text}" for key, text in files[1:])]
    for end, text in ((".bundle", bundle), (".files", "\n".join(parts))):
        with open(os.path.join(folder, name + end), "w", encoding="utf-8", newline="\n") as file:
            file.write(text)
    print(name)


def app(path):
    return f"app refs/heads/main {path}"


# the example
files = []
with open(shop, encoding="utf-8", newline="\n") as bundle:
    for line in bundle:
        if line.startswith("%%% "):
            files.append([line[4:-1], ""])
        else:
            files[-1][1] += line
write("example", files)

# 100 templates of 200 steps each, of which the plan refuses the 2,001st step
root = "steps:\n" + "".join(f"- template: t{n}.yml\n" for n in range(100))
steps = "steps:\n" + "- script: make all\n  displayName: Make\n" * 200
write("100-templates-of-200", [(app("/ci.yml"), root), *((app(f"/t{n}.yml"), steps) for n in range(100))])

# nodes up to the count, which the plan then refuses: steps in the root, steps by calls, steps 100 levels deep
write("20000-steps", [(app("/ci.yml"), "steps:\n" + STEP * 20_000)])
root = "steps:\n" + "- template: t.yml\n" * 14_000
write("14000-calls", [(app("/ci.yml"), root), (app("/t.yml"), "steps:\n" + STEP)])
levels = [(app("/ci.yml"), "steps:\n- template: t0.yml\n")]
levels += [(app(f"/t{n}.yml"), f"steps:\n- template: t{n + 1}.yml\n") for n in range(98)]
levels += [(app("/t98.yml"), "steps:\n" + "- template: t99.yml\n" * 2), (app("/t99.yml"), "steps:\n" + STEP * 20_000)]
write("100-levels", levels)

# plans: 2,000 steps by calls; stages, and jobs, that wait for all before them; jobs that each wait for 100 legs
root = "steps:\n" + "".join(f"- template: t{n}.yml\n" for n in range(100))
steps = "steps:\n" + "- script: make all\n  displayName: Make\n" * 20
write("100-templates-of-20", [(app("/ci.yml"), root), *((app(f"/t{n}.yml"), steps) for n in range(100))])


def waits(count, indent):
    """The line of who waits for the first so many."""
    return f"{indent}dependsOn: [{', '.join(f'n{n}' for n in range(count))}]\n"


root = "stages:\n"
for n in range(64):
    root += f"- stage: n{n}\n{waits(n, '  ')}  jobs:\n  - job: J\n    steps:\n    - script: make\n"
write("64-stages-on-all-before", [(app("/ci.yml"), root)])
root = "jobs:\n"
for n in range(256):
    root += f"- job: n{n}\n{waits(n, '  ')}  steps:\n  - script: make\n"
write("256-jobs-on-all-before", [(app("/ci.yml"), root)])
root = "jobs:\n- job: n0\n  strategy:\n    parallel: 100\n  steps:\n  - script: make\n"
for n in range(1, 157):
    root += f"- job: n{n}\n{waits(1, '  ')}  steps:\n  - script: make\n"
write("156-jobs-on-100-legs", [(app("/ci.yml"), root)])
