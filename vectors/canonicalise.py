"""Cases of the canonicaliser, with their answers (document 01, "Canonical list" and "Numbers a call answers with").

usage: python3 vectors/canonicalise.py      writes crates/replay_canonicalise/stdin and stdout

How the cases are made: lists for each sentence about the canonical list are written out by hand in
canonicalise_folds.py, canonicalise_lists.py and canonicalise_refusals.py, with the list or the refusal that document 01
gives; then lists are drawn, sound and damaged, many of them with constants. Every answer, every word that is written
and whether the work space is cleared is what vectors/model.py computes, and what is written out must be the model's.
Where few variables are below the root, the model says besides what a comparison of the given list with the canonical
one finds: never that they differ. The last cases are the original Rust's: vectors/oracle/canonicalise.txt has those of
its canonical lists that are document 01's (oracle/sample); they must be the model's too, or this stops.

A case is one line of decimal words:
  words entries work out_words out_entries  number node node_words pool_words  verdict  cleared
  node words.. and pool entries.. of the given list, then, where number is 0, node_words words and pool_words entries of
  the canonical list
work, out_words, out_entries: how much is lent for work and for each output. node_words and pool_words: how much is
written to each. verdict: what a comparison says whose first list is the given one and whose second is what was written,
0 Equiv, 2 Inconclusive; 3 where it is not asked. cleared: 1 where the work space is all zeros after the call, 0 where
it is unchanged. What is lent for work holds 2^63, 2^63 + 1, .. before the call and each output 2^31, 2^31 + 1, .., so
that a word that is written is told from one that is left alone. The same cases come out at each run, byte for byte:
what is drawn is drawn from a fixed seed.
"""
import random
import sys
from collections import Counter

import canonicalise_folds
import canonicalise_lists
import canonicalise_refusals
import meaning
import model
import original
from canonicals import NOT_ASKED, SHORT_OUTPUT, WIDE_GATE, case, lines
from comparisons import LITTLE_WORK, asked
from lister import Evaluable, evaluable_list, word_changed, word_dropped
from recorded import made, shown, written

CRATE = "replay_canonicalise"
SEED = 20250405
FOLDING_LISTS = 620
EVALUABLE_LISTS = 260
MEANING_LISTS = 420
FEWEST_CASES = 4000
LARGEST_INPUT = 1_500_000
LARGEST_DRAWN = 250
# the words of a case before its lists
HEAD = 11

# ---- drawn lists


class Folding(Evaluable):
    """An evaluable list in which folding has much to do: constants among its leaves, and programs that depend on few of
    their operands. Its gates are over bits, so that number 14 names few."""

    def leaf(self):
        name = self.rng.choice(["Var"] * 4 + ["Const"] * 3 + ["DC"] * self.may_fail)
        first = {"Var": self.rng.randrange(6), "Const": self.rng.randint(0, 1), "DC": 0}[name]
        return self.put(name, fields=(first, 0))

    def some_shape(self):
        return 1

    def lut(self):
        k = self.rng.choice([0, 1, 1, 2, 2, 3, 3, 4, 5, 6])
        idle = [place for place in range(k) if self.rng.random() < 0.25]
        program = canonicalise_folds.program_without(k, idle, self.rng)
        return self.put("Lut", self.some_program(program), *[self.of_shape(1) for _ in range(k)])


def folding_list(rng):
    """One of 3 to 25 nodes."""
    while True:
        drawing = Folding(rng)
        size = rng.choice([3, 4, 5, 6, 7, 8, 9, 10, 12, 14, 16])
        while len(drawing.kinds) < size:
            drawing.node()
        drawing.join()
        if 3 <= len(drawing.kinds) <= 25:
            return drawing.words()


def short_of(rng, answer):
    """Output that is too short for an answer of these lengths, in one of the two or in both."""
    short = [rng.randrange(length) if length else 0 for length in answer]
    one_less = [max(length - 1, 0) for length in answer]
    return tuple(rng.choice((short, one_less, [one_less[0], answer[1]], [answer[0], one_less[1]])))


def damaged_cases(rng, at, given, canonical):
    """A word of the list changed or dropped, too little work space, too short an output."""
    if at % 3 == 0:
        case(word_changed(rng, *given))
    if at % 8 == 1:
        case(word_dropped(rng, *given))
    if at % 8 == 3:
        case(word_changed(rng, *word_changed(rng, *given)))
    if at % 20 == 5:
        case(given, work=rng.randrange(asked(given)))
    if at % 6 == 4:
        case(given, room=short_of(rng, tuple(map(len, canonical))))


def drawn_case(rng, at, given):
    """The list with just enough output or more, and then damaged."""
    (number, _), canonical = case(given)
    assert number in (0, WIDE_GATE)
    if number == 0 and at % 4 == 2:
        case(given, asked(given) + rng.choice([0, 5]), tuple(len(part) + rng.choice([0, 1, 5]) for part in canonical))
    damaged_cases(rng, at, given, canonical)


def folding_lists(rng):
    for at in range(FOLDING_LISTS):
        drawn_case(rng, at, folding_list(rng))


def evaluable_lists(rng):
    for at in range(EVALUABLE_LISTS):
        drawn_case(rng, at, evaluable_list(rng))


def canonical_lists(rng):
    """A canonical list's own canonical list is itself."""
    for _ in range(FOLDING_LISTS // 8):
        (number, _), canonical = case(folding_list(rng))
        if number == 0:
            again = case(canonical)
            assert again == ((0, 0), canonical)


def meaning_lists(rng):
    """Lists as vectors/meaning.py draws them for the definition."""
    for _ in range(MEANING_LISTS):
        nodes, pool, work, *outputs = meaning.draw_canonicalise(rng)
        if len(nodes) + len(pool) <= LARGEST_DRAWN:
            case((nodes, pool), len(work), tuple(map(len, outputs)))


# ---- the original's


def from_the_original():
    for (words, entries, *rest), (node_words, pool_words, *list_words) in original.cases("canonicalise"):
        (number, _), (nodes, pool) = case(tuple(original.parts(rest, words, entries)))
        theirs = list_words[:node_words], list_words[node_words:]
        original.agreed("canonicalise", (number, nodes, pool), (0, *theirs))
        assert len(theirs[1]) == pool_words


# ---- the whole

BY_HAND = canonicalise_folds.BY_HAND + canonicalise_lists.BY_HAND + canonicalise_refusals.BY_HAND
DRAWN = (folding_lists, evaluable_lists, canonical_lists, meaning_lists)


def is_unchanged(line):
    """Whether the canonical list is the given one."""
    words, entries, _, _, _, _, _, node_words, pool_words = line[:9]
    given = line[HEAD:HEAD + words + entries]
    return (words, entries) == (node_words, pool_words) and line[HEAD + words + entries:] == given


def roots(done):
    """How many canonical roots there are of each kind."""
    last = (line[HEAD + line[0] + line[1] + line[7] - model.WORDS_PER_NODE] for line in done)
    return Counter(model.KINDS[kind] for kind in last)


def tally():
    """How many cases there are of each number, verdict, root and change of length; each is there."""
    numbers = Counter(line[5] for line in lines)
    done = [line for line in lines if line[5] == 0]
    verdicts = Counter({0: "Equiv", 2: "Inconclusive", NOT_ASKED: "not asked"}[line[9]] for line in done)
    change = Counter("fewer" if line[7] < line[0] else "more" if line[7] > line[0] else "as many" for line in done)
    shown("numbers", numbers)
    shown("verdicts of the given list and the canonical", verdicts)
    shown("canonical nodes beside the given ones", change)
    print(f"canonical as given: {sum(map(is_unchanged, done))}", file=sys.stderr)
    shown("canonical roots", roots(done))
    assert set(numbers) == {0, 1, 2, 3, 4, 5, 6, 7, 8, LITTLE_WORK, WIDE_GATE, SHORT_OUTPUT}
    # no gate is left
    assert set(roots(done)) == set(model.KINDS) - model.GATES - {"Program", "Arg"}
    assert min(verdicts["Equiv"], verdicts["Inconclusive"]) >= 500 and min(change.values()) >= 400
    assert len(lines) >= FEWEST_CASES


def main():
    # the model follows a list of 4,096 nodes one below the other by some calls each
    sys.setrecursionlimit(20000)
    rng = random.Random(SEED)
    for title, makers in (("by hand", BY_HAND), ("drawn", DRAWN), ("more", (from_the_original,))):
        counts = made(makers, rng, lines)
        shown(f"{sum(counts.values())} {title}", counts, key=list(counts).index)
    tally()
    written(CRATE, lines, LARGEST_INPUT)


if __name__ == "__main__":
    main()
