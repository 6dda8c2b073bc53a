"""Writes the root files that are measured into a folder, and beside each a plain text to compare it
with. A line for each of them goes to standard output: its name, whether it expands, and what the
plain text is."""

import os
import sys

LIMIT = 262_144

folder = sys.argv[1]


def write(name, text):
    assert len(text) <= LIMIT, name
    with open(os.path.join(folder, name), "w", encoding="ascii", newline="\n") as file:
        file.write(text)


def pair(name, text, plain, expands=True, like="its nodes and bytes, plain"):
    """A root file, and the plain text that it is compared with."""
    write(name + ".text", text)
    write(name + ".plain", plain)
    print(name, "expands" if expands else "refused", like, sep="\t")


def filled(part, size=LIMIT):
    """As many of a text as fit into so many bytes."""
    return part * (size // len(part))


def written(name, text, expands=True):
    """A root file, and the same nodes in the same bytes without an expression: each character of
    `${{`, `}}` and what stands between is a letter."""
    plain, at = "", 0
    while (begin := text.find("${{", at)) >= 0:
        end = text.find("}}", begin) + 2
        end = end if end > 1 else len(text)
        plain += text[at:begin] + "".join(c if c.isalnum() else "a" for c in text[begin:end])
        at = end
    pair(name, text, plain + text[at:], expands)


def counted(name, text, nodes):
    """A root file whose expansion counts so many nodes, and a list of so many nodes."""
    pair(name, text, "- a:\n" * ((nodes - 1) // 2) + "- a\n" * ((nodes - 1) % 2), like=f"{nodes} nodes")


def numbered(count):
    """The default of a parameter: so many texts."""
    return f"parameters:\n- name: l\n  type: object\n  default: [{','.join(map(str, range(count)))}]\n"


def loops(depth, body):
    """Loops in one another over two items each, `body` in the innermost."""
    lines = ["steps:"]
    for level in range(depth):
        lines.append("  " * level + f"- ${{{{ each v{level} in parameters.l }}}}:")
    return "\n".join([*lines, "  " * depth + body]) + "\n"


def nodes_of_loops(depth):
    """What `loops` of a scalar counts: a loop counts its item, its list of two and each turn's body
    and the item in it. The root and its list are two more."""
    inner = 1
    for _ in range(depth):
        inner = 1 + 3 + 2 * (1 + inner)
    return 2 + inner


# one scalar that is one `${{`, without an end or with one
written("no-end", "${{" + "a" * (LIMIT - 3), expands=False)
written("one-string", "${{'" + "a" * (LIMIT - 7) + "'}}")
written("many-in-one", filled("${{0}}"))
# branches: a chain in a list, whose keys may be equal, and one in a mapping
written("ifs", filled("- ${{if 0}}:\n"))
written("elseifs", "- ${{if 0}}:\n" + filled("- ${{elseif 0}}:\n", LIMIT - 13))
written("behind-taken", "- ${{if 1}}: []\n" + filled("- ${{elseif 0}}:\n", LIMIT - 16))
written("ifs-of-a-mapping", "".join(f"${{{{if not({n})}}}}:\n" for n in range(10_000, 23_107)))
# keys
written("keys", "".join(f"key_{n:05}: 1\n" for n in range(20_000)))
written("made-keys", "".join(f"${{{{{n}}}}}:\n" for n in range(10_000, 30_000)))
# repositories, whose aliases differ
aliases = "".join(f"  - {{repository: r{n:05}, name: a}}\n" for n in range(7_600))
written("repositories", "resources:\n  repositories:\n" + aliases)
# loops in loops, up to the count
counted("each-each", numbered(181) + loops(2, "- a"), 4 * 181 + 3 * 181 * 181 + 4)
counted("each-each-text", numbered(141) + loops(2, "- ${{ v0 }}${{ v1 }}"), 4 * 141 + 5 * 141 * 141 + 4)
counted("each-13-deep", numbered(2) + loops(13, "- ${{ v0 }}"), nodes_of_loops(13) + 2**13)


def used(name, declared, expression):
    """The same declarations with 1,000 uses of an expression and with none."""
    write(name + ".uses", declared + "steps:\n" + f"- ${{{{{expression}}}}}\n" * 1_000)
    write(name + ".none", declared + "steps: []\n")


# what one use of a name costs beside more of what isn't used
for many in (1_000, 2_000, 4_000):
    variables = "variables:\n" + "".join(f"  v{n}: x\n" for n in range(many))
    used(f"item-of-{many}", numbered(many), "parameters.l[0]")
    used(f"length-of-{many}", numbered(many), "length(parameters.l)")
    used(f"last-variable-of-{many}", variables, f"variables.v{many - 1}")


def turns(name, count, expression):
    """A loop over so many items whose body is an expression, and the same with a text for a body."""
    declared = numbered(count) + "steps:\n- ${{ each v in parameters.l }}:\n  - "
    write(name + ".uses", declared + f"${{{{{expression}}}}}\n")
    write(name + ".none", declared + "a\n")


# what one turn costs that names an item of the parameter that the loop goes over
for many in (1_000, 2_000, 4_000):
    turns(f"item-in-turns-of-{many}", many, "parameters.l[0]")
