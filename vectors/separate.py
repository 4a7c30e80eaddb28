"""Cases of the separation, with their answers (document 01, "Comparison and separation" and "Numbers a call answers
with").

usage: python3 vectors/separate.py      writes crates/replay_separate/stdin and stdout

How the cases are made: lists for each sentence about separation are written out by hand in separate_values.py,
separate_inputs.py and separate_refusals.py, with n and marks and the answer that document 01 gives; then lists are
drawn, sound and damaged. Every answer, and whether the work space is cleared, is what vectors/model.py computes, and an
answer that is written out must be the model's. The model tries 2^n assignments: where that is over 2^12 and none of the
first 2^12 crosses, separations.py tries those of the variables below the root alone, a way that must agree with the
model wherever both are asked; and 22 cases in which it would take minutes are written out alone (`all_of_many`).
The last cases are answered by the original Rust: it has no such judgement, but vectors/oracle/separate.txt has document
01's definition over its own evaluator (oracle/sample), which must be the model's answer too, or this stops.

A case is one line of decimal words:
  words entries n marks work  number node judgement index  state width value  state width value  cleared
  node words.. and pool entries..
judgement: 0 Separate, 1 Crossing. The two answers are that at the index and that at the index with its run bits
cleared; state: 0 a value, 1 to 4 a failure. cleared: 1 where the work space is all zeros after the call, 0 where it is
unchanged. What is lent for work holds 2^63, 2^63 + 1, .. before the call, so that a word that is cleared is told from
one that is left alone. The same cases come out at each run, byte for byte: what is drawn is drawn from a fixed seed.
"""
import itertools
import random
import sys
from collections import Counter

import meaning
import model
import original
import separate_inputs
import separate_refusals
import separate_values
from comparisons import LITTLE_WORK, asked, each_tree_once
from lister import LARGEST, evaluable_list, word_changed, word_dropped
from networks import FAILURES
from recorded import index_range, made, shown, shown_indices, written
from separations import OUT_OF_BOUNDS, case, lines

CRATE = "replay_separate"
SEED = 20250322
EVALUABLE_LISTS = 420
MEANING_LISTS = 420
FEWEST_CASES = 4500
LARGEST_INPUT = 1_500_000
LARGEST_DRAWN = 250
# a drawn list has variables below this one
DRAWN_VARIABLES = 6

# ---- drawn lists


def drawn_bounds(rng):
    """n and marks that a drawn list is in order with, most often: few marks, all but few, or any."""
    n = rng.choice([DRAWN_VARIABLES, DRAWN_VARIABLES, DRAWN_VARIABLES + 1, DRAWN_VARIABLES + 2, model.MOST_INPUTS])
    one = 1 << rng.randrange(DRAWN_VARIABLES)
    everything = 2 ** n - 1
    return n, rng.choice([one, one, one | 1 << rng.randrange(n), everything - one, rng.randrange(2 ** n)])


def faulty_bounds(rng, n, marks):
    """Another n, or a mark more: now and then out of bounds."""
    way = rng.randrange(4)
    if way == 0:
        return rng.randrange(DRAWN_VARIABLES), 0
    if way == 1:
        return n, marks | 1 << rng.randrange(32)
    if way == 2:
        return rng.choice([31, 32, rng.randrange(LARGEST)]), marks
    return rng.randrange(DRAWN_VARIABLES), marks


def damaged_cases(rng, at, given, n, marks):
    """A word of the list changed or dropped, other bounds, or too little work space."""
    if at % 3 == 0:
        case(word_changed(rng, *given), n, marks)
    if at % 3 == 1:
        case(given, *faulty_bounds(rng, n, marks))
    if at % 8 == 2:
        case(word_dropped(rng, *given), n, marks)
    if at % 8 == 3:
        case(word_changed(rng, *given), *faulty_bounds(rng, n, marks))
    if at % 20 == 5:
        case(given, n, marks, work=rng.randrange(asked(given)))


def evaluable_lists(rng):
    for at in range(EVALUABLE_LISTS):
        given, (n, marks) = evaluable_list(rng), drawn_bounds(rng)
        with each_tree_once():
            assert case(given, n, marks, asked(given) + rng.choice([0, 0, 5]))[0] == 0
            damaged_cases(rng, at, given, n, marks)


def meaning_lists(rng):
    """Lists as vectors/meaning.py draws them for the definition."""
    for _ in range(MEANING_LISTS):
        nodes, pool, n, marks, work = meaning.draw_separate(rng)
        if len(nodes) + len(pool) <= LARGEST_DRAWN:
            case((nodes, pool), n, marks, len(work))


# ---- the original's


def from_the_original():
    for (words, entries, n, marks, *rest), answer in original.cases("separate"):
        given = tuple(original.parts(rest, words, entries))
        original.agreed("separate", case(given, int(n), int(marks)), (0, 0, *answer))


# ---- the whole

BY_HAND = separate_values.BY_HAND + separate_inputs.BY_HAND + separate_refusals.BY_HAND
DRAWN = (evaluable_lists, meaning_lists)


def tally():
    """How many cases there are of each number, judgement, n, index, failure and width; each is there."""
    numbers = Counter(line[5] for line in lines)
    done = [line for line in lines if line[5] == 0]
    judgements = Counter(("Separate", "Crossing")[line[7]] for line in done)
    crossed = [line for line in done if line[7] == model.CROSSING]
    states = Counter((line[9], line[12]) for line in crossed)
    shown("numbers", numbers)
    shown("judgements", judgements)
    shown("n where it is done", Counter(line[2] for line in done))
    shown_indices("indices of crossings", Counter(index_range(line[8]) for line in crossed))
    shown("run bits at the crossing", Counter((line[8] & line[3]).bit_count() for line in crossed))
    shown("states at the index and cleared", states)
    shown("widths of values that cross", Counter(line[10] for line in crossed if line[9] == line[12] == 0))
    assert set(numbers) == {0, 1, 2, 3, 4, 5, 6, 7, 8, LITTLE_WORK, OUT_OF_BOUNDS}
    assert min(judgements.values()) >= 1000
    # every variable is driven; the same failure on both sides is no crossing
    sides = itertools.product((0, *FAILURES[1:]), repeat=2)
    assert set(states) == {(one, two) for one, two in sides if one != two or one == 0}
    assert len(lines) >= FEWEST_CASES


def main():
    # the model follows a list of 4,096 nodes one below the other by as many calls
    sys.setrecursionlimit(20000)
    rng = random.Random(SEED)
    for title, makers in (("by hand", BY_HAND), ("drawn", DRAWN), ("more", (from_the_original,))):
        counts = made(makers, rng, lines)
        shown(f"{sum(counts.values())} {title}", counts, key=list(counts).index)
    tally()
    written(CRATE, lines, LARGEST_INPUT)


if __name__ == "__main__":
    main()
