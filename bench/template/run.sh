#!/bin/sh
# Counts the instructions of `pl_template::scalar_form` and `key_form` on texts of 262,144 bytes, by callgrind, and prints
# them for each byte; those of an empty text are taken off. Needs valgrind and python3. Not a part of the gate.
set -e
here=$(cd "$(dirname "$0")" && pwd)
top=$(cd "$here/../.." && pwd)
work=$(mktemp -d)
trap 'rm -rf "$work"' EXIT
mkdir -p "$work/crates/forms/src"
for crate in $("$top/tools/below" pl_template); do
    cp -r "$top/crates/$crate" "$work/crates/"
    grep "^$crate[: ]" "$top/crates.txt" >>"$work/crates.txt"
done
echo "forms: pl_base pl_template" >>"$work/crates.txt"
cp "$here/forms.rt.in" "$work/crates/forms/src/main.rt"
cp "$top/HANDLES" "$work/"
(cd "$work/crates/forms" && rt run </dev/null >"$work/log" 2>&1) || { cat "$work/log" >&2; exit 1; }
python3 - "$work/crates/forms/out/forms" "$work" <<'PYTHON'
import re, subprocess, sys
program, work = sys.argv[1:]
size = 262144

def instructions(text, words):
    out = f"{work}/callgrind"
    told = subprocess.run(["valgrind", "--tool=callgrind", f"--callgrind-out-file={out}", program, *words],
                          input=text.encode(), capture_output=True, check=True).stderr.decode()
    return int(re.search(r"Collected : (\d+)", told).group(1))

def filled(part):
    return (part * (size // len(part) + 1))[:size]

none = instructions("", [])
for name, text, words in (
    ("plain", filled("a"), []),
    ("dollars", filled("$"), []),
    ("one opening, no end", "${{" + filled("a")[3:], []),
    ("openings alone", filled("${{"), []),
    ("one expression", "${{" + filled("a")[5:] + "}}", []),
    ("one string", "${{'" + filled("}")[7:] + "'}}", []),
    ("empty expressions", filled("${{}}"), []),
    ("expressions and literals", filled("a${{ b }}"), []),
    ("directives in one key", filled("${{ if a }}"), ["key"]),
    ("one directive", "${{ if " + filled("a")[9:] + "}}", ["key"]),
):
    print(f"{name}: {(instructions(text, words) - none) / len(text):.1f} instructions a byte")
PYTHON
