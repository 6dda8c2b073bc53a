"""The tables of bench/stack/run.sh."""

import os
import resource
import subprocess
import sys
import tempfile

from measured import measure
from shapes import ALL, bundle

read, evaluate, depths, pipectl = sys.argv[1:]
TEXTS = [
    ("read: a text without content", [read], ""),
    ("read: 64 flow sequences in one another", [read], "[" * 64 + "]" * 64 + "\n"),
    ("read: 64 flow mappings", [read], "{a: " * 64 + "}" * 64 + "\n"),
    ("read: 64 block sequences", [read], "- " * 64 + "a\n"),
    ("read: 64 block mappings", [read], "".join("  " * n + "a:\n" for n in range(64))),
    ("parse: a literal", [evaluate, "parse"], "1"),
    ("parse: 50 levels", [evaluate, "parse"], "not(" * 49 + "1" + ")" * 49),
    ("parse: 50 levels of look-ups", [evaluate, "parse"], "a[" * 49 + "1" + "]" * 49),
    ("eval: a literal, with the deep value made", [evaluate], "1"),
    ("eval: 50 levels", [evaluate], "not(" * 49 + "1" + ")" * 49),
    ("eval: a value of 999 nodes in one another", [evaluate], "parameters.deep"),
    ("eval: that behind 48 functions", [evaluate], "coalesce(''," * 48 + "parameters.deep" + ")" * 48),
]
SIZES = sorted([2**n for n in range(3, 15)] + [3 * 2**n for n in range(2, 13)])
WORDS = ["drop", "copy", "compare", "equal", "print", "cross", "count", "text"]


def ends(words, text, kib):
    """Whether a program ends well within so much stack."""

    def limit():
        resource.setrlimit(resource.RLIMIT_STACK, (kib * 1024, kib * 1024))

    try:
        return subprocess.run(words, input=text.encode(), preexec_fn=limit, capture_output=True).returncode == 0
    except (OSError, subprocess.SubprocessError):
        return False


def compiled(folder, text):
    """What compiling a bundle takes."""
    path = os.path.join(folder, "text")
    with open(path, "w", encoding="utf-8", newline="\n") as file:
        file.write(text)
    return measure([pipectl, "compile"], path, os.path.join(folder, "output"))


def nested(kind, depth):
    """A root whose one step stands in so many nodes of a kind."""
    head = "parameters:\n- name: l\n  type: object\n  default: [1]\nsteps:\n- "
    opened = {"a list": ("[", "]"), "a mapping": ("{a: ", "}"), "an `if` of items": ("{'${{if 1}}': [", "]}"), "an `if` of pairs": ("{'${{if 1}}': ", "}"), "a loop": ("{'${{each x in parameters.l}}': [", "]}"), "an `insert`": ("{'${{insert}}': ", "}")}[kind]
    return bundle(head + opened[0] * depth + "{a: b}" + opened[1] * depth + "\n")


def calls(depth):
    files = [(f"/t{n}.yml", f"steps:\n- template: t{n + 1}.yml\n") for n in range(depth)]
    return bundle("steps:\n- template: t0.yml\n", *files, (f"/t{depth}.yml", "steps:\n- script: a\n"))


print("| Input | KiB of stack that suffice |\n|---|---|")
for title, words, text in TEXTS:
    least = next((kib for kib in SIZES if ends(words, text, kib)), None)
    print(f"| {title} | {least if least else 'none'} |", flush=True)
with tempfile.TemporaryDirectory() as folder:
    output = os.path.join(folder, "output")
    print("\n| A value of so many nodes in one another | KiB at 998 | bytes a node more |\n|---|---|---|")
    for word in WORDS:
        few, many = (measure([depths, word, str(levels)], os.devnull, output) for levels in (498, 998))
        print(f"| {word} | {many.stack if many.ending == 0 else many.ending} | {(many.stack - few.stack) * 1024 // 500} |", flush=True)
    print("\n| A node more that is open | bytes |\n|---|---|")
    for kind, (few, many) in {"a list": (10, 60), "a mapping": (10, 60), "an `if` of items": (5, 30), "an `if` of pairs": (10, 60), "a loop": (5, 30), "an `insert`": (10, 60)}.items():
        one, other = compiled(folder, nested(kind, few)), compiled(folder, nested(kind, many))
        print(f"| {kind} | {(other.stack - one.stack) * 1024 // (many - few)} |", flush=True)
    one, other = compiled(folder, calls(9)), compiled(folder, calls(98))
    print(f"| a call, with its list and its mapping | {(other.stack - one.stack) * 1024 // 89} |")
    print("\n| Input of bench/hostile | KiB | status |\n|---|---|---|")
    for name, written, _statuses, seed, _about in ALL:
        if seed:
            told = compiled(folder, written())
            if told.stack > 400:
                print(f"| {name} | {told.stack} | {told.ending} |", flush=True)
