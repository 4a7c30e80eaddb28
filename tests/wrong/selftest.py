"""Edits that the runner must not take for refused wrong answers, tried on the crate `refusals`."""
from edits import Wrong
from scratch import WRONG, Scratch
from trial import BAD, PROVED, REFUSED, UNFIT, tried, tried_alone

CRATE = "refusals"
FILE = "file: src/lib.rt\n"
# name, edit, what is to come of it
CASES = (
    ("a_comment_changed", "old: // A test that names no node: done, or its number.\nnew: // A test.\n", PROVED),
    ("a_text_that_is_not_there", "old: return third;\nnew: return first;\n", BAD),
    ("a_text_that_is_there_twice", "old: Refusal {\nnew: Refusal  {\n", BAD),
    ("no_rattle", "old:         return second;\nnew:         return nothing_known;\n", BAD),
    ("one_test_more", "old: first.number == DONE {\nnew: first.number == DONE && first.number == DONE {\n", UNFIT),
    ("a_wrong_answer", "old:         return second;\nnew:         return first;\n", REFUSED),
)


def cases():
    folder = WRONG / "selftest"
    folder.mkdir(parents=True, exist_ok=True)
    for name, text, outcome in CASES:
        path = folder / f"{name}.edit"
        path.write_text(FILE + text)
        yield Wrong(CRATE, name, path, False), outcome


def selftest():
    """Says what came of each, and of a wrong answer tried together with a harmless edit; the status of that."""
    scratch = Scratch()
    try:
        made = list(cases())
        seen = [(wrong.name, outcome, tried_alone(scratch, wrong)) for wrong, outcome in made]
        pair = tried(scratch, [made[-1][0], Wrong(CRATE, "harmless_beside_it", harmless(), False)])
        seen += [(f"{wrong.name}, together", outcome, result)
                 for (wrong, result), outcome in zip(pair.items(), (REFUSED, PROVED))]
    finally:
        scratch.remove()
    for name, outcome, result in seen:
        said = "as it must be" if result.outcome == outcome else f"and must be: {outcome}"
        print(f"{name}: {result.outcome}, {said} ({result.place} {result.fact})")
    return 1 if any(result.outcome != outcome for _, outcome, result in seen) else 0


def harmless():
    """An edit of another function's body that leaves its meaning."""
    path = WRONG / "selftest" / "harmless_beside_it.edit"
    path.write_text(FILE + "old:     if test {\nnew:     if test { // \n")
    return path
