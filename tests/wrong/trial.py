"""Wrong answers tried, some of them together, and what came of each.

A function is proved against the contracts of those that it calls, so edits that change the bodies of different
functions do not touch each other: they are tried in one check, and each must be refused at a fact of its own function.
Where one is not, it is tried again alone. An edit of a contract, a constant or a definition is always tried alone.
"""
import time
from collections import namedtuple

from edits import BadEdit, apply, changes_of
from functions import body_changed
from refused import is_of, refusals, unread

REFUSED, PROVED, BAD, UNFIT = "refused", "proved", "bad edit", "refused by no fact"
# the status of a check that gives no verdict
AT_LIMIT = 3

# outcome: one of the four. place, fact: of the refusal, or why it is no refusal. seconds, cpu: of the check that it was
# tried in. beside: how many were tried in that check
Result = namedtuple("Result", "outcome place fact seconds cpu beside")


def groups(wrongs, together):
    """The wrong answers of one crate, parted into those that are tried in one check."""
    alone, by_function = [], {}
    for wrong in wrongs:
        function = body_of(wrong) if together else None
        if function is None:
            alone.append([wrong])
        else:
            by_function.setdefault(function, []).append(wrong)
    rounds = max((len(same) for same in by_function.values()), default=0)
    return alone + [[same[k] for same in by_function.values() if k < len(same)] for k in range(rounds)]


def body_of(wrong):
    """The function whose body alone it changes."""
    try:
        return body_changed(changes_of(wrong.path.read_text()), wrong.crate)
    except (BadEdit, OSError):
        return None


def tried(scratch, group):
    """Tries a group; gives the results by wrong answer."""
    if len(group) == 1:
        return {group[0]: tried_alone(scratch, group[0])}
    try:
        said, seconds, cpu = checked(scratch, group)[1:]
    except BadEdit:
        said, seconds, cpu = "", 0, 0
    results = {}
    for wrong in group:
        function = body_of(wrong)
        own = [refusal for refusal in refusals(said) if is_of(refusal, function)]
        if own:
            results[wrong] = Result(REFUSED, own[0].place, own[0].fact, seconds, cpu, len(group))
        else:
            results[wrong] = tried_alone(scratch, wrong)
    return results


def tried_alone(scratch, wrong):
    try:
        status, said, seconds, cpu = checked(scratch, [wrong])
    except BadEdit as bad:
        return Result(BAD, "", str(bad), 0, 0, 1)
    if status == 0:
        return Result(PROVED, "", "the crate is still proved with it", seconds, cpu, 1)
    if status == AT_LIMIT:
        return Result(UNFIT, "", "the prover met a limit of its own", seconds, cpu, 1)
    if "logic=not-proved" not in said:
        return Result(BAD, "", "it does not reach the prover", seconds, cpu, 1)
    line = unread(said, {change.file for change in changes_of(wrong.path.read_text())})
    if line:
        return Result(BAD, "", f"it cannot be read: {line[:200]}", seconds, cpu, 1)
    found = refusals(said)
    if not found:
        return Result(UNFIT, "", first_error(said), seconds, cpu, 1)
    return Result(REFUSED, found[0].place, found[0].fact, seconds, cpu, 1)


def checked(scratch, group):
    """Checks the crate with the edits in it: the status, what was said, the seconds and the processor's seconds."""
    crate = group[0].crate
    try:
        for wrong in group:
            apply(changes_of(wrong.path.read_text()), scratch.folder(crate))
        began = time.time()
        status, said, cpu = scratch.check(crate)
        scratch.log(group, said)
        return status, said, time.time() - began, cpu
    finally:
        scratch.restore(crate)


def first_error(said):
    errors = [line for line in said.splitlines() if "error" in line or "not proved" in line]
    return errors[0][-300:] if errors else "no error was printed"
