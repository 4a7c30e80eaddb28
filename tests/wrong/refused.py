"""What refused a wrong answer, read from what the check says.

A fact is refused by a line such as

    ./proofs/bus_step/Answers.antt:10:5: error: `returns`: ..

The function is in the path, the fact between the first ticks. A function that is proved with no proof file is told by

    fn lists::layout::part_fits: no proof: expected answers in ..; `search` did not prove `sum`, `returns`

of which the last fact is taken: what the function promises comes last. Lines that only say that the proof file no longer
fits, or that something refused before is missing, tell no fact.
"""
import re
from collections import namedtuple

ERROR = re.compile(r"^(?:\./)?(?P<part>proofs|specs)/(?P<path>\S+)\.antt:\d+:\d+: error: (?P<says>.*)$")
FACT = re.compile(r"^`(?P<fact>[^`]+)`: (?P<why>.*)$")
NO_FILE = re.compile(r"^fn \w+::(?P<path>[\w:]+): no proof: .* did not prove (?P<facts>`[^`]+`(?:, `[^`]+`)*)")
FUNCTION = re.compile(r"^fn \w+::(?P<path>[\w:]+): ")
# the files of a function's proof; a file of another name has lemmas
OF_FUNCTION = ("Answers", "Invariants", "Proof")
# the proof file does not fit, or rests on what was refused before
NO_FACT = re.compile(r"was not admitted|not in scope|has no `|no such|is not declared|does not have a field|no field|"
                     r"is not admitted")
# a text that cannot be read
UNREAD = re.compile(r"not in scope|has no field|is no name|operand is missing|expected the end|cannot continue")

# place: a function's path, or a file of specs/ or of lemmas. fact: the need, the law or the claim that did not hold
Refusal = namedtuple("Refusal", "place fact")


def told(part, path, fact, functions):
    """Where a file's fact stands: in a function's proof, or in a file of definitions or lemmas."""
    *folders, file = path.split("/")
    if part == "specs" or file not in OF_FUNCTION:
        return Refusal(f"{part}/{path}", fact)
    *modules, folder = folders
    if folder.startswith("+"):
        folder, fact = in_cycle(modules, folder, fact, functions)
    return Refusal("::".join([*modules, folder]), fact)


def in_cycle(modules, folder, fact, functions):
    """Functions that call each other have one proof, +NAME, in which a fact begins with its function's name."""
    name, _, rest = fact.partition("-")
    return (name, rest) if rest and "::".join([*modules, name]) in functions else (folder[1:], fact)


def refusal_in(line, functions):
    """The fact whose refusal a line tells; None where it tells none."""
    no_file = NO_FILE.match(line)
    if no_file:
        return Refusal(no_file["path"], no_file["facts"].split("`")[-2])
    error = ERROR.match(line)
    fact = FACT.match(error["says"]) if error else None
    if fact and not NO_FACT.search(fact["why"]):
        return told(error["part"], error["path"], fact["fact"], functions)
    return None


def functions_told(said):
    """The functions of which the check says how they stand."""
    return {told["path"] for told in map(FUNCTION.match, said.splitlines()) if told}


def refusals(said):
    """The facts that were refused, in order."""
    functions = functions_told(said)
    found = (refusal_in(line, functions) for line in said.splitlines())
    return [refusal for refusal in found if refusal]


def is_of(refusal, function):
    """Is the refused fact one of this function?"""
    return refusal.place == function.path


def unread(said, files):
    """The first line that says that a definition, or one of these files, cannot be read; None where all can."""
    for line in said.splitlines():
        error = ERROR.match(line)
        if error and (error["part"] == "specs" or f"{error['part']}/{error['path']}.antt" in files):
            fact = FACT.match(error["says"])
            why = re.sub(r"`[^`]*`", "", fact["why"] if fact else error["says"])
            if UNREAD.search(why) or not (fact or NO_FACT.search(why)):
                return line
    return None
