"""Writes roots with their templates into a folder, each set as one file. A line for each of them goes
to standard output: its name, and how many nodes its expansion counts."""

import os
import sys

folder = sys.argv[1]
STEP = "- script: a\n"


def write(name, nodes, root, files):
    parts = [root, *(f"%file {path}\n{text}" for path, text in files)]
    with open(os.path.join(folder, name), "w", encoding="ascii", newline="\n") as file:
        file.write("\n".join(parts))
    print(name, nodes)


# what stands in a template of one step: its mapping, the list, the step and its script
TEMPLATE = 4
# a call: its mapping and its path
CALL = 2

# the same template of one step, called so many times
for many in (500, 1_000, 2_000, 4_000, 8_000, 14_000):
    root = "steps:\n" + "- template: t.yml\n" * many
    write(f"calls-of-one-{many}", 2 + (CALL + TEMPLATE) * many, root, [("/t.yml", "steps:\n" + STEP)])

# the same steps, written in the root
for many in (2_000, 14_000):
    write(f"no-calls-{many}", 2 + 2 * many, "steps:\n" + STEP * many, [])

# so many templates of one step each, called one after the other
for many in (25, 50, 100):
    root = "steps:\n" + "".join(f"- template: t{n}.yml\n" for n in range(many))
    files = [(f"/t{n}.yml", "steps:\n" + STEP) for n in range(many)]
    write(f"templates-{many}", 2 + (CALL + TEMPLATE) * many, root, files)

# each template calls the next one, the last one has a step
for many in (25, 50, 100):
    files = [(f"/t{n}.yml", f"steps:\n- template: t{n + 1}.yml\n") for n in range(many - 1)]
    files.append((f"/t{many - 1}.yml", "steps:\n" + STEP))
    # of the last one all that is in it, of each other one its mapping, its list and its call
    nodes = 2 + CALL + (2 + CALL) * (many - 1) + TEMPLATE
    write(f"levels-{many}", nodes, "steps:\n- template: t0.yml\n", files)

# each template hands its list of steps to the next one, the last one puts them
for many in (25, 50, 100):
    given = "parameters:\n- name: s\n  type: stepList\n"
    handed = "  parameters:\n    s: ${{ parameters.s }}\n"
    files = [(f"/t{n}.yml", f"{given}steps:\n- template: t{n + 1}.yml\n{handed}") for n in range(many - 1)]
    files.append((f"/t{many - 1}.yml", given + "steps:\n- ${{ parameters.s }}\n"))
    root = "steps:\n- template: t0.yml\n  parameters:\n    s:\n    - script: a\n"
    # arguments: their mapping; the list, the step and its script, or the scalar and what it yields
    nodes = 2 + (CALL + 1 + 3) + (2 + CALL + 1 + 1 + 3) * (many - 1) + (2 + 1 + 3)
    write(f"handed-on-{many}", nodes, root, files)
