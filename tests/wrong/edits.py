"""Wrong answers as edits: where they stand, how one is read and put into a copy of its crate.

An edit is a text: `file: PATH`, relative to the crate, then pairs of lines `old: ..` and `new: ..`. The old text must
be in the file exactly once, as in the edits that the gate tries. Any other line is passed over.
"""
from collections import namedtuple
from pathlib import Path

ROOT = Path(__file__).resolve().parents[2]
CRATES = ROOT / "crates"
BESIDE = ROOT / "tests" / "wrong"
PARTS = ("src", "specs", "proofs")

# gate: whether the gate tries it too
Wrong = namedtuple("Wrong", "crate name path gate")
Change = namedtuple("Change", "file old new")


class BadEdit(Exception):
    """An edit that cannot be put into its crate; the message says why."""


def wrongs():
    """Every wrong answer, by crate and name."""
    found = [Wrong(p.parts[-3], p.stem, p, True) for p in CRATES.glob("*/must-fail/*.edit")]
    found += [Wrong(p.parts[-2], p.stem, p, False) for p in BESIDE.glob("*/*.edit")]
    return sorted(found, key=lambda wrong: (wrong.crate, wrong.name))


def repeated(found):
    """The names that one crate has twice: a name must tell one edit."""
    seen = set()
    return sorted({f"{w.crate}/{w.name}" for w in found if (w.crate, w.name) in seen or seen.add((w.crate, w.name))})


def changes_of(text):
    """The changes that an edit's text asks for."""
    changes, path, old = [], "", ""
    for line in text.splitlines():
        if line.startswith("file: "):
            path = line[len("file: "):]
        elif line.startswith("old: "):
            old = line[len("old: "):]
        elif line.startswith("new:"):
            changes.append(Change(path, old, line[len("new:"):].removeprefix(" ")))
            old = ""
    if not changes:
        raise BadEdit("it has no 'old:' and 'new:' pair")
    return changes


def changed(text, change):
    """The text of a file with one change made."""
    times = text.count(change.old) if change.old else 0
    if times != 1:
        raise BadEdit(f"its old text is in {change.file} {times} times, and must be there once: {change.old.strip()}")
    return text.replace(change.old, change.new)


def apply(changes, crate_folder):
    """Makes the changes in a copy of the crate."""
    for change in changes:
        if not change.file.startswith(("src/", "specs/")) or ".." in change.file.split("/"):
            raise BadEdit(f"it changes {change.file}, which is neither code nor a definition of its crate")
        path = crate_folder / change.file
        if not path.is_file():
            raise BadEdit(f"its crate has no {change.file}")
        path.write_text(changed(path.read_text(), change))
