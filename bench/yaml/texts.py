"""Writes the texts that are measured into a folder, one file each, and into its file `titles` a line `NAME|TITLE` for each."""
import os
import string
import sys

LIMIT = 262_144

folder = sys.argv[1]
titles = []


def write(name, title, text):
    with open(os.path.join(folder, name), "wb") as file:
        file.write(text.encode())
    titles.append(f"{name}|{title}\n")


def lines(line, room=LIMIT):
    """As many of a line as fit into so many bytes."""
    return line * (room // len(line))


def keys(count):
    """So many distinct keys of three characters, each on a line of its own."""
    letters = string.ascii_letters
    return "".join(
        f"{letters[n // 2704 % 52]}{letters[n // 52 % 52]}{letters[n % 52]}:\n" for n in range(count)
    )


def nested():
    """64 mappings, one in the other, the last of 1,895 keys."""
    outer = "".join("  " * level + "a:\n" for level in range(63))
    return outer + "".join("  " * 63 + f"key_{n:04}:\n" for n in range(1_895))


steps = "".join(f"  - script: echo step {n}\n    displayName: Step {n}\n" for n in range(2_000))

with open(os.path.join(folder, "empty"), "wb"):
    pass
write("entries", "lines `- a: 1`", lines("- a: 1\n"))
write("entries-half", "half of them", lines("- a: 1\n", LIMIT // 2))
write("keys-20000", "20,000 keys of nine characters, with values", "".join(f"key_{n:05}: 1\n" for n in range(20_000)))
write("keys-50000", "50,000 keys of three characters", keys(50_000))
write("keys-25000", "25,000 of them", keys(25_000))
write("steps-2000", "2,000 steps of two lines", "steps:\n" + steps)
write("nested-64", "64 mappings, one in the other, the last of 1,895 keys", nested())
write("dashes-64", "64 dashes on each line", lines("- " * 64 + "a\n"))
write("plain", "one plain scalar on lines of 18 bytes", "a: word\n" + lines("  word word words\n", LIMIT - 8))
write("plain-short", "on lines of 3 bytes", "a: b\n" + lines(" c\n", LIMIT - 5))
write("plain-empty", "with 262,000 empty lines", "a: b" + "\n" * 262_000 + " c\n")
write("block", "one block scalar (`\\|`) on lines of 18 bytes", "a: |\n" + lines("  word word words\n", LIMIT - 5))
write("block-folded", "(`>`) on lines of 3 bytes", "a: >\n" + lines(" c\n", LIMIT - 5))
write("block-empty", "(`\\|+`) of empty lines", "a: |+\n" + "\n" * (LIMIT - 6))
write("block-late", "its content behind empty lines", "a: |\n" + "\n" * (LIMIT - 8) + " c\n")
write("double-quoted", "one double-quoted scalar with escapes", 'a: "' + "word \\n " * 32_000 + '"\n')
write("flow", "one flow sequence of 131,071 scalars", "[" + "a," * 131_070 + "a]\n")
write("flow-deep", "63 brackets in an entry, 2,048 entries", lines("- " + "[" * 63 + "]" * 63 + "\n"))
with open(os.path.join(folder, "titles"), "w") as file:
    file.writelines(titles)
