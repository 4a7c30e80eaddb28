"""The functions of a crate's code: where each stands, and which of them an edit changes."""
import re
from collections import namedtuple

from edits import CRATES

HEAD = re.compile(r'^(?P<indent> *)(?P<public>pub )?(pub\([a-z]+\) )?(extern "C" )?fn (?P<name>\w+)')
CLAUSE = re.compile(r"^ *(requires|ensures|ghost)\b")

# path: as the check names it, without the crate. first, body, last: its first line, that of its body, and its last
Function = namedtuple("Function", "crate file path public promises first body last")


def module_of(file):
    """The module that a file of src/ is, as a prefix of its functions' paths."""
    inner = file.removeprefix("src/").removesuffix(".rt")
    return "" if inner in ("lib", "main") else inner.replace("/", "::") + "::"


def functions_in(crate, file, text):
    """The functions of one file, in order."""
    lines = text.splitlines()
    found = []
    for first, line in enumerate(lines):
        head = HEAD.match(line)
        if head:
            last = next(n for n in range(first, len(lines)) if lines[n] == head["indent"] + "}")
            body = next(n for n in range(first, len(lines)) if lines[n].endswith("{") and not CLAUSE.match(lines[n]))
            promises = any(part.lstrip().startswith("ensures") for part in lines[first:body + 1])
            path = module_of(file) + head["name"]
            found.append(Function(crate, file, path, bool(head["public"]), promises, first, body, last))
    return found


def functions_of(crate):
    """Every function of a crate."""
    files = sorted((CRATES / crate / "src").rglob("*.rt"))
    return [f for path in files
            for f in functions_in(crate, str(path.relative_to(CRATES / crate)), path.read_text())]


def line_of(change, crate):
    """The line of the file at which a change begins; None where its old text is not there."""
    text = (CRATES / crate / change.file).read_text()
    at = text.find(change.old)
    return None if at < 0 else text.count("\n", 0, at)


def touched(changes, crate):
    """The function that holds every changed line, in its contract or its body; None where there is no such one."""
    return holder(changes, crate, lambda f: f.first)


def body_changed(changes, crate):
    """The function whose body holds every changed line: its contract, which its callers rely on, stays."""
    return holder(changes, crate, lambda f: f.body + 1)


def holder(changes, crate, start):
    held = set()
    for change in changes:
        line = line_of(change, crate) if change.file.startswith("src/") else None
        over = [f for f in functions_of(crate) if f.file == change.file]
        over = [f for f in over if line is not None and start(f) <= line <= f.last]
        held.add(over[0] if over else None)
    return held.pop() if len(held) == 1 else None
