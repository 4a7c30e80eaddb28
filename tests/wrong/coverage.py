"""Which public routines with a contract have fewer than two wrong answers.

A wrong answer counts for the function whose contract or body it changes and for those at whose facts it was refused;
and where that function is private, for the public ones of its crate that reach it, whose body it is a part of. One of
a definition that another crate has counts for none.
"""
import re

from edits import CRATES, changes_of
from functions import functions_of, touched
from refused import is_of, refusals
from scratch import log_of

ENOUGH = 2
# they write to files, and promise nothing of it (docs/CONTRACTS.md, "Exceptions")
PROMISE_NOTHING = {"answer_text", "comparison_text", "refusal_text", "replay_report", "separation_text"}


def libraries():
    return sorted(path.parents[1].name for path in CRATES.glob("*/src/lib.rt"))


def calls(function):
    """The names that a function's body calls."""
    lines = (CRATES / function.crate / function.file).read_text().splitlines()
    return set(re.findall(r"\b(\w+)\(", "\n".join(lines[function.body:function.last + 1])))


def parts_of(function, own):
    """The function and the private ones of its crate that it reaches by calls."""
    parts, todo = {function}, [function]
    while todo:
        names = calls(todo.pop())
        more = [f for f in own if not f.public and f not in parts and f.path.split("::")[-1] in names]
        parts.update(more)
        todo += more
    return parts


def told_of(wrong, own, results):
    """The functions of the crate that a wrong answer says something of."""
    told = {touched(changes_of(wrong.path.read_text()), wrong.crate)}
    result = results.of(wrong)
    if result is not None and result.beside == 1 and log_of(wrong).is_file():
        found = refusals(log_of(wrong).read_text())
        told |= {function for function in own if any(is_of(refusal, function) for refusal in found)}
    return told


def few_of(crate, wrongs, results):
    """How many public routines with a contract the crate has, and a line for each with too few wrong answers."""
    own = functions_of(crate)
    told = {wrong.name: told_of(wrong, own, results) for wrong in wrongs}
    routines = [function for function in own if function.public and function.promises]
    few = []
    for function in routines:
        parts = parts_of(function, own)
        names = [name for name, functions in told.items() if functions & parts]
        if len(names) < ENOUGH:
            few.append(f"{crate}::{function.path}: {' '.join(names) or 'none'}")
    return len(routines), few


def show(found, results):
    """Lists the routines that have too few; the status of that."""
    few, total = [], 0
    for crate in libraries():
        if crate not in PROMISE_NOTHING:
            count, lines = few_of(crate, [wrong for wrong in found if wrong.crate == crate], results)
            total += count
            few += lines
    for line in few:
        print(line)
    print(f"{total} public routines with a contract, {len(few)} with fewer than {ENOUGH} wrong answers")
    return 1 if few else 0
