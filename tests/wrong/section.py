"""The section of docs/CONTRACTS.md that says what refused each wrong answer, and the names that the document has."""
import re

from edits import CRATES, ROOT, changes_of
from trial import REFUSED

DOCUMENT = ROOT / "docs" / "CONTRACTS.md"
BEGIN = "<!-- from here to the next mark: written by tests/wrong/run --write -->"
END = "<!-- end of what tests/wrong/run writes -->"
LONGEST = 64
NAME = re.compile(r"\b[a-z0-9]+(?:_[a-z0-9]+)+\b")

HEAD = """## What refused each wrong answer

Every wrong answer, what its line becomes, and what refused it: a fact of a function's proof (`FACT` of `FUNCTION`), or
a law or worked examples of a file of definitions or of lemmas. "gate" stands where the gate tries it, in
`crates/NAME/must-fail`; the others stand in `tests/wrong/NAME`. `tests/wrong/run` tries them all, and writes this
section.
"""
TABLE = "| Wrong answer | Its line becomes | Refused at | Tried by |\n|---|---|---|---|"


def becomes(wrong):
    """The line that the edit puts in, shortened; of several the last that brings no name in."""
    changes = changes_of(wrong.path.read_text())
    told = [change for change in changes if not change.new.lstrip().startswith(("use ", "ghost use "))] or changes
    line = shortened(told[-1].old.strip(), told[-1].new.strip())
    return "`" + line.replace("|", "\\|") + "`" if line else "nothing"


def shortened(old, new):
    """A long line from the word before its first difference on."""
    if len(new) <= LONGEST:
        return new
    same = next((k for k, (a, b) in enumerate(zip(old, new)) if a != b), min(len(old), len(new)))
    start = new.rfind(" ", 0, max(0, new.rfind(" ", 0, same))) + 1
    rest = new[start:]
    cut = rest if len(rest) <= LONGEST else rest[:LONGEST].rsplit(" ", 1)[0] + " .."
    return cut if start == 0 else ".. " + cut


def refused_at(result):
    if result is None:
        return "not tried as it stands"
    if result.outcome != REFUSED:
        return f"{result.outcome}"
    if result.place.startswith(("specs/", "proofs/")):
        return f"`{result.fact}` in {result.place}"
    return f"`{result.fact}` of `{result.place}`"


def rows(found, results):
    lines, crate = [HEAD], ""
    for wrong in found:
        if wrong.crate != crate:
            crate = wrong.crate
            lines.append(f"{'' if len(lines) == 1 else chr(10)}### `{crate}`\n\n{TABLE}")
        by = "gate" if wrong.gate else "tests/wrong"
        lines.append(f"| {wrong.name} | {becomes(wrong)} | {refused_at(results.of(wrong))} | {by} |")
    return "\n".join(lines)


def parted(text):
    """The document before the section, the section, and what is behind it."""
    if text.count(BEGIN) != 1 or text.count(END) != 1:
        raise SystemExit(f"tests/wrong/run: {DOCUMENT.relative_to(ROOT)} has not each of its two marks once")
    before, rest = text.split(BEGIN)
    inside, behind = rest.split(END)
    return before, inside, behind


def write(found, results):
    """Writes the section; gives how many wrong answers it cannot say a refusal of."""
    before, _, behind = parted(DOCUMENT.read_text())
    DOCUMENT.write_text(f"{before}{BEGIN}\n\n{rows(found, results)}\n\n{END}{behind}")
    return sum(not results.stands(wrong) for wrong in found)


def check_names(found):
    """Every name that the document has is an edit, and the section has every edit; the status of that."""
    before, inside, behind = parted(DOCUMENT.read_text())
    prose = re.sub(r"`[^`]*`", " ", before + behind)
    files = {wrong.name for wrong in found}
    crates = {path.name for path in CRATES.iterdir()}
    unknown = sorted(set(NAME.findall(prose)) - files - crates)
    listed = re.findall(r"^### `(\w+)`$|^\| ([a-z0-9_]+) \|", inside, re.M)
    crate, named = "", set()
    for head, name in listed:
        crate = head or crate
        named.add((crate, name))
    wanted = {(wrong.crate, wrong.name) for wrong in found}
    absent = sorted(f"{c}/{n}" for c, n in wanted - named)
    gone = sorted(f"{c}/{n}" for c, n in named - wanted if n)
    for says, names in (("named, and no edit", unknown + gone), ("an edit, and not in the section", absent)):
        for name in names:
            print(f"{says}: {name}")
    print(f"{len(found)} edits; {len(unknown + gone)} names without an edit, {len(absent)} edits without a name")
    return 1 if unknown or gone or absent else 0
