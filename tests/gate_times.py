"""Says how long the gate took, and where each crate's check's time went.

usage: rt ci --anew | tee LOG; python3 tests/gate_times.py LOG WALL CHECKS
       WALL: how long the gate took, as in "16 min 40 s"; CHECKS: what tests/check_times.py --all wrote of every crate

Writes docs/GATE.md from what the gate and the checks wrote: for each crate, in the order of crates.txt, its functions,
the modules of proved libraries that its check read, how many edits must fail, and the seconds of its check by itself.
The gate runs several at a time and says of none how long it took. Of a crate that it keeps from an earlier run it says
nothing, so it is run with --anew. A gate that is not green has no times.
"""
import os
import re
import subprocess
import sys
import textwrap
from collections import namedtuple

ROOT = os.path.join(os.path.dirname(os.path.abspath(__file__)), "..")
HEAD = re.compile(r"^== \w+$")
PROVED = re.compile(r"^rt: (\w+) proved$")
EDIT = re.compile(r"^rt: must-fail (\w+)/[\w.-]+\.edit: refused, as it must be\b")
FUNCTIONS = re.compile(r"^logic=proved functions=(\d+) ")
MODULES = re.compile(r"^(?:library|statements) \w+: modules loaded=(\d+) ")
END = re.compile(r"^(\d+) passed, 0 failed$")
# what tests/check_times.py writes: a line for a crate, and one for each of its functions
CHECKED = re.compile(r"^(\w+): ([\d.]+) s: (.*)$")
FUNCTION = re.compile(r"^  (\S+) +([\d.]+) +([\d.]+)$")
# so many of the slowest are named
SLOWEST = 8

Proof = namedtuple("Proof", "functions modules")
Function = namedtuple("Function", "name walk proof")

# how wide a line of the page's text is
WIDE = 120


def crates():
    with open(os.path.join(ROOT, "crates.txt"), encoding="utf-8") as listed:
        return re.findall(r"^(\w+)(?: [^:#\n]*)?:", listed.read(), re.M)


def number(pattern, line):
    """What the pattern finds in the line, 0 where it is another line."""
    found = pattern.match(line)
    return int(found[1]) if found else 0


def read(log):
    """Each crate's proof, how many edits of each were refused, and how many passed; none where the gate is not green."""
    proofs, edits, passed = {}, {}, None
    functions = modules = 0
    for line in log:
        if HEAD.match(line):
            functions = modules = 0
        functions, modules = functions + number(FUNCTIONS, line), modules + number(MODULES, line)
        proof, edit = PROVED.match(line), EDIT.match(line)
        if proof:
            proofs[proof[1]] = Proof(functions, modules)
        if edit:
            edits[edit[1]] = edits.get(edit[1], 0) + 1
        passed = number(END, line) or passed
    return proofs, edits, passed


def read_checks(lines):
    """Of each crate the seconds of each part of its check, and every function."""
    checks, functions, crate = {}, [], None
    for line in lines:
        checked, function = CHECKED.match(line), FUNCTION.match(line)
        if checked:
            crate = checked[1]
            parts = (part.rsplit(" ", 1) for part in checked[3].split(", "))
            checks[crate] = {part: float(seconds) for part, seconds in parts}
        if function:
            functions.append(Function(f"{crate}::{function[1].replace('.', '::')}", float(function[2]), float(function[3])))
    return checks, functions


def row(name, proofs, edits, checks):
    proof, parts = proofs[name], checks[name]
    cells = [f"`{name}`", str(proof.functions), f"{proof.modules:,}", str(edits.get(name, 0))]
    cells += [f"{seconds:.1f}" for seconds in (sum(parts.values()), parts["walk"], parts["proof"],
                                               parts["specs"] + parts["shared"], parts["reading"])]
    return f"| {' | '.join(cells)} |"


def paragraph(*sentences):
    return textwrap.fill(" ".join(sentences), WIDE, break_long_words=False, break_on_hyphens=False) + "\n"


def why(proofs, checks, functions):
    total = {part: sum(parts[part] for parts in checks.values()) for part in next(iter(checks.values()))}
    count = sum(proof.functions for proof in proofs.values())
    slowest = sorted(functions, key=lambda function: -function.walk - function.proof)[:SLOWEST]
    return [
        "## Where a check's time goes",
        "",
        paragraph(
            f"By `tests/check_times.py`, each crate checked by itself: {sum(total.values()):.0f} s.",
            f"Of these {total['walk']:.0f} s are the kit's walk of the functions' code, {total['walk'] / count:.2f} s for each of",
            f"{count} functions; {total['reading']:.0f} s starting and reading the libraries below; {total['proof']:.0f} s the",
            f"proofs of the functions; {total['specs'] + total['shared']:.0f} s definitions, laws and what several proofs share.",
            "So a crate is slow by its code and not by its proofs (docs/DECISIONS.md, \"What makes the gate long\")."),
        paragraph("The slowest functions, with their proofs:", ", ".join(
            f"`{function.name}` {function.walk + function.proof:.1f} s" for function in slowest) + "."),
    ]


def page(proofs, edits, passed, wall, checks, functions):
    slowest = sorted(checks, key=lambda name: -sum(checks[name].values()))[:SLOWEST]
    heads = ["Crate", "Functions", "Modules", "Edits", "By itself, s", "walk", "proofs", "specs", "reading"]
    lines = [
        "# The gate, crate by crate",
        "",
        f"Made by `tests/gate_times.py` from what `rt ci --anew` wrote, with the kit {kit()}.",
        "",
        paragraph(f"{passed} passed, 0 failed, in {wall}. {len(proofs)} crates were proved and {sum(edits.values())} edits",
                  "refused, several at a time."),
        paragraph("The slowest by themselves:",
                  ", ".join(f"`{name}` {sum(checks[name].values()):.0f} s" for name in slowest) + "."),
        *why(proofs, checks, functions),
        "## Each crate",
        "",
        paragraph("Modules are those of the proved libraries below a crate that its check read.",
                  "The last five columns are of its check by itself."),
        f"| {' | '.join(heads)} |",
        "|---" * len(heads) + "|",
        *[row(name, proofs, edits, checks) for name in crates()],
    ]
    return "\n".join(lines) + "\n"


def kit():
    return subprocess.run(["rt", "version"], capture_output=True, text=True, check=True).stdout.strip()


def lines_of(path):
    with open(path, encoding="utf-8") as text:
        return text.read().split("\n")


def main():
    if len(sys.argv) != 4:
        sys.exit(__doc__)
    proofs, edits, passed = read(lines_of(sys.argv[1]))
    checks, functions = read_checks(lines_of(sys.argv[3]))
    missing = [name for name in crates() if name not in proofs or name not in checks]
    if passed is None or missing:
        sys.exit(f"no green gate, or not all of it: {', '.join(missing) or 'its last line is not there'}")
    with open(os.path.join(ROOT, "docs", "GATE.md"), "w", encoding="utf-8") as out:
        out.write(page(proofs, edits, passed, sys.argv[2], checks, functions))


if __name__ == "__main__":
    main()
