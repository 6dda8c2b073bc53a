"""Measures the shapes whose names have one of the given parts, or all of them; with --quick those that are small and within the goal.

    python3 bench/hostile/measure.py [--quick] PROGRAM [PART-OF-A-NAME]...

The status is 1 where one is over the goal that shapes.OVER doesn't name, or one that it names is within it."""

import os
import sys
import tempfile

from measured import measure
from shapes import ALL, OVER

SECONDS, MEGABYTES, STACK = 2.0, 200, 8 * 1024
MEMORY = 6
TOLD = b"pipectl: no memory for "


def over(one, statuses, wanted=None):
    """What of a shape is over the goal, in words."""
    found = []
    if one.ending < 0:
        found.append(f"signal {-one.ending}")
    elif one.ending not in statuses | ({MEMORY} if wanted is None else set()):
        found.append("status")
    elif one.ending == MEMORY and TOLD not in one.told:
        found.append("untold")
    elif wanted is not None and one.output != wanted.encode():
        found.append("answer")
    if one.seconds > SECONDS:
        found.append("seconds")
    if one.megabytes > MEGABYTES:
        found.append("megabytes")
    if one.stack > STACK:
        found.append("stack")
    return " ".join(found)


def least(words, path, output, statuses, wanted=None):
    """What a program takes over a file, and what of that is over the goal. Where only the seconds are, which other programs on the
    same processor may make more, it is measured twice more, and the least counts."""
    one = measure(words, path, output)
    for _ in range(2):
        if over(one, statuses, wanted) == "seconds":
            one = min(one, measure(words, path, output))
    return one, over(one, statuses, wanted)


def chosen(quick, parts):
    """The shapes to measure."""
    for name, written, statuses, seed, wanted in ALL:
        if quick and (name in OVER or not seed):
            continue
        if not parts or any(part in name for part in parts):
            yield name, written, statuses, wanted


def main():
    words = sys.argv[1:]
    quick = "--quick" in words
    program, *parts = [word for word in words if word != "--quick"]
    count = beyond = failed = 0
    print(f"{'input':62} {'bytes':>8} {'s':>6} {'MB':>6} {'KiB':>6} {'status':>6}  over")
    with tempfile.TemporaryDirectory() as folder:
        text, output = os.path.join(folder, "text"), os.path.join(folder, "output")
        for name, written, statuses, wanted in chosen(quick, parts):
            with open(text, "w", encoding="utf-8", newline="\n") as file:
                file.write(written())
            one, wrong = least([program, "compile"], text, output, statuses, wanted)
            count += 1
            beyond += bool(wrong)
            failed += bool(wrong) != (name in OVER)
            size = os.path.getsize(text)
            told = f"{wrong} (known)" if wrong and name in OVER else "within the goal now" if name in OVER else wrong
            print(f"{name:62} {size:8} {one.seconds:6.2f} {one.megabytes:6.0f} {one.stack:6} {one.ending:6}  {told}", flush=True)
    print(f"{count} inputs, {beyond} over, {failed} otherwise than known")
    return 1 if failed else 0


if __name__ == "__main__":
    sys.exit(main())
