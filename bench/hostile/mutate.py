"""Changes inputs at random for so many seconds of processor time, and tells each that is over the goal.

    python3 bench/hostile/mutate.py PROGRAM SECONDS [SEED]

The seconds are those of this process and of the programs that it runs, so that a busy machine tries as many inputs as a quiet one.
The seeds are the small shapes that are within the goal and the cases of bundles. What is over in seconds alone is measured twice
more, and the least counts. What is over is kept in a folder that is named at the end, and the status is 1 then."""

import glob
import os
import random
import shutil
import sys
import tempfile

from measure import least
from shapes import ALL, OVER

STATUSES = {0, 8, 9}
MOST = 4_000_000
HERE = os.path.dirname(os.path.abspath(__file__))
TOP = os.path.dirname(os.path.dirname(HERE))
WORDS = ["${{ parameters.a }}", "${{ each x in parameters.l }}:", "${{ if 1 }}:", "${{ insert }}:", "- template: t.yml", "steps:", "split(", "replace(", "format('{0}{0}',", "join(',',", "parameters.l", ",", "'", '"', "[", "]", "{", "}", "dependsOn: a", "parallel: 100", "type: object", "default:"]


def seeds():
    """Texts of bundles."""
    found = [written() for name, written, _statuses, seed, _wanted in ALL if seed and name not in OVER]
    for path in sorted(glob.glob(f"{TOP}/beside/cases_bundles/data/*.cases")):
        with open(path, encoding="utf-8", errors="replace") as file:
            for part in file.read().split("%%% case ")[1:]:
                text = part.partition("\n")[2].partition("%%% ask ")[0]
                # A second file of the same key would make it no bundle.
                found.append(text if text.startswith("%%% ") else "%%% app refs/heads/main /ci.yml\n" + text)
    return [text for text in found if len(text) < 300_000]


def times(chance, counts, size):
    """How often a part of that size is repeated: one of the counts, as far as the text stays within what it may have."""
    return min(chance.choice(counts), MOST // max(1, size))


def changed(text, others, chance):
    """A text with some of its parts left out, doubled, repeated, exchanged, or put from another one or from the words."""
    lines = text.split("\n")
    for _ in range(chance.randint(1, 6)):
        at = chance.randrange(len(lines))
        to = min(len(lines), at + chance.randint(1, 8))
        way = chance.randrange(7)
        if way == 0:
            del lines[at:to]
        elif way == 1:
            part = lines[at:to]
            lines[at:at] = part * times(chance, [1, 2, 10, 100], sum(map(len, part)))
        elif way == 2:
            other = chance.choice(others).split("\n")
            from_there = chance.randrange(len(other))
            lines[at:at] = other[from_there : from_there + chance.randint(1, 8)]
        elif way == 3:
            line = lines[at]
            cut = chance.randint(0, len(line))
            lines[at] = line[:cut] + chance.choice(WORDS) * chance.choice([1, 1, 2, 20, 1000]) + line[cut:]
        elif way == 4:
            lines[at:to] = ["  " + line for line in lines[at:to]]
        elif way == 5:
            line = lines[at]
            cut, end = sorted((chance.randint(0, len(line)), chance.randint(0, len(line))))
            lines[at] = line[:cut] + line[cut:end] * times(chance, [0, 2, 50, 5000], end - cut) + line[end:]
        else:
            lines[at] = "".join(chance.choice("0123456789") if c.isdigit() and chance.random() < 0.5 else c for c in lines[at])
        if not lines:
            lines = [""]
    return "\n".join(lines)[:MOST]


def spent():
    """Seconds of processor time of this process and of those that it ran."""
    return sum(os.times()[:4])


def main():
    program, seconds = sys.argv[1], float(sys.argv[2])
    chance = random.Random(int(sys.argv[3]) if len(sys.argv) > 3 else 1)
    texts, end, count, wrong = seeds(), spent() + seconds, 0, 0
    most = [0.0, 0.0, 0]
    kept = tempfile.mkdtemp(prefix="hostile-")
    with tempfile.TemporaryDirectory() as folder:
        path, output = os.path.join(folder, "text"), os.path.join(folder, "output")
        while spent() < end:
            text = changed(chance.choice(texts), texts, chance)
            with open(path, "w", encoding="utf-8", newline="\n", errors="replace") as file:
                file.write(text)
            one, told = least([program, "compile"], path, output, STATUSES)
            count += 1
            most = [max(pair) for pair in zip(most, one[:3])]
            if count % 1000 == 0:
                print(f"{count} inputs, {spent():.0f} s, at most {most[0]:.2f} s, {most[1]:.0f} MB, {most[2]} KiB", flush=True)
            if told:
                wrong += 1
                shutil.copyfile(path, f"{kept}/{wrong}.bundle")
                print(f"{wrong}.bundle: {told}: {one.seconds:.2f} s, {one.megabytes:.0f} MB, {one.stack} KiB, status {one.ending}", flush=True)
    print(f"{count} inputs, {wrong} over, in {kept}; at most {most[0]:.2f} s, {most[1]:.0f} MB, {most[2]} KiB")
    return 1 if wrong else 0


if __name__ == "__main__":
    sys.exit(main())
