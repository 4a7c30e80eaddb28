"""Cases of the comparison, with their answers (document 01, "Comparison and separation" and "Numbers a call answers
with").

usage: python3 vectors/compare.py      writes crates/replay_compare/stdin and stdout

How the cases are made: pairs of lists for each sentence about a comparison are written out by hand in
compare_values.py, compare_inputs.py and compare_refusals.py, each with the answer that document 01 gives it; then pairs
of lists are drawn, sound, alike and damaged. Every answer, and whether the work space is cleared, is what
vectors/model.py computes, and an answer that is written out must be the model's; six cases of 2^16 assignments and more
are too long for the model, and are written out alone (`all_of_many`). The last cases are the original Rust's:
vectors/oracle/compare.txt has them with its verdict and, by its own evaluator, the index and both answers
(oracle/sample), which must be the model's too, or this stops.

A case is one line of decimal words:
  words1 entries1 words2 entries2 work  number node verdict index  state1 width1 value1  state2 width2 value2  cleared
  node words.. and pool entries.. of the first list, node words.. and pool entries.. of the second
verdict: 0 Equiv, 1 NotEquiv, 2 Inconclusive. state: 0 a value, 1 to 4 a failure. cleared: 1 where the work space is all
zeros after the call, 0 where it is unchanged. What is lent for work holds 2^63, 2^63 + 1, .. before the call, so that a
word that is cleared is told from one that is left alone. The same cases come out at each run, byte for byte: what is
drawn is drawn from a fixed seed.
"""
import itertools
import random
import sys
from collections import Counter

import compare_inputs
import compare_refusals
import compare_values
import meaning
import model
import original
from comparisons import FAILS, NOT_EVALUABLE, asked, case, each_tree_once, lines
from lister import evaluable_list, word_changed, word_dropped
from networks import FAILURES
from recorded import index_range, made, shown, shown_indices, written

CRATE = "replay_compare"
SEED = 20250308
ALIKE_PAIRS = 260
OTHER_PAIRS = 110
MEANING_PAIRS = 400
FEWEST_CASES = 4500
LARGEST_INPUT = 1_900_000
LARGEST_DRAWN = 300
# the words of a case before its lists
HEAD = 16

# ---- drawn pairs


def small_enough(*lists):
    return all(len(nodes) + len(pool) <= LARGEST_DRAWN for nodes, pool in lists)


def damaged_cases(rng, at, first, second):
    """A word of either list changed or dropped, or too little work space."""
    if at % 3 == 0:
        case(word_changed(rng, *first), second)
    if at % 3 == 1:
        case(first, word_changed(rng, *second))
    if at % 8 == 2:
        case(word_dropped(rng, *first), second)
    if at % 8 == 3:
        case(first, word_dropped(rng, *second))
    if at % 8 == 4:
        case(word_changed(rng, *first), word_changed(rng, *second))
    if at % 20 == 5:
        case(first, second, work=rng.randrange(asked(first, second)))


def alike_pairs(rng):
    """An evaluable list and one beside it: its tree listed otherwise, its canonical list, another leaf, a bus of it."""
    for at in range(ALIKE_PAIRS):
        first = evaluable_list(rng)
        with each_tree_once():
            second = meaning.like(rng, *first) if gates_are_bits(first) else first
        if at % 5 == 0:
            first, second = second, first
        if small_enough(first, second):
            words = case(first, second, asked(first, second) + rng.choice([0, 0, 5]))
            # another leaf may be another Arg's index, and a bus of a bus is none
            assert words[0] in (0, FAILS, NOT_EVALUABLE)
            damaged_cases(rng, at, first, second)


def gates_are_bits(given):
    """Whether the canonical tree has the same values: "Turning a bus gate into a Lut keeps only bit 0"."""
    try:
        model.gates_are_bits(model.Listed(*given))
    except model.Refused:
        return False
    return True


def other_pairs(rng):
    """Two evaluable lists that have nothing to do with each other; and one in which a word is changed."""
    for at in range(OTHER_PAIRS):
        first, second = evaluable_list(rng), evaluable_list(rng)
        assert case(first, second)[0] == 0
        case(first, word_changed(rng, *first))
        damaged_cases(rng, at, first, second)


def meaning_pairs(rng):
    """Pairs as vectors/meaning.py draws them for the definitions."""
    for _ in range(MEANING_PAIRS):
        *lists, work = meaning.draw_compare(rng)
        first, second = tuple(lists[:2]), tuple(lists[2:])
        if small_enough(first, second):
            case(first, second, len(work))


# ---- the original's


def from_the_original():
    for words, answer in original.cases("compare"):
        nodes1, pool1, nodes2, pool2 = original.parts(words[4:], *words[:4])
        original.agreed("compare", case((nodes1, pool1), (nodes2, pool2)), (0, 0, *answer))


# ---- the whole

DRAWN = (compare_values.drawn_tables, alike_pairs, other_pairs, meaning_pairs)


def same_tree(line):
    """Whether the two lists of a line stand for one tree."""
    words1, entries1, words2, entries2 = line[:4]
    bounds = list(itertools.accumulate((HEAD, words1, entries1, words2, entries2)))
    parts = [list(line[start:end]) for start, end in zip(bounds, bounds[1:])]
    with each_tree_once():
        return model.Listed(*parts[:2]).trees[-1] is model.Listed(*parts[2:]).trees[-1]


def tally():
    """How many cases there are of each number, verdict, index, failure and width; each is there."""
    numbers = Counter(line[5] for line in lines)
    done = [line for line in lines if line[5] == 0]
    verdicts = Counter(("Equiv", "NotEquiv", "Inconclusive")[line[7]] for line in done)
    decided = [line for line in done if line[7] != 0]
    indices = Counter(index_range(line[8]) for line in decided)
    states = Counter((line[9], line[12]) for line in decided)
    differing = [line for line in decided if line[7] == 1]
    widths = Counter(width for line in differing for width in {line[10], line[13]})
    unlike = sum(line[10] != line[13] for line in differing)
    equal = sum(same_tree(line) for line in done if line[7] == 0)
    shown("numbers", numbers)
    shown("verdicts", verdicts)
    print(f"Equiv: {equal} of equal trees, {verdicts['Equiv'] - equal} by every assignment", file=sys.stderr)
    shown_indices("indices that decide", indices)
    shown("states of first and second", states)
    shown("widths that differ or whose values do", widths)
    print(f"NotEquiv: {unlike} by the widths, {len(differing) - unlike} by the values", file=sys.stderr)
    assert set(numbers) == {0, 1, 2, 3, 4, 5, 6, 7, 8, 9, 10}
    assert min(verdicts.values()) >= 500 and equal >= 500
    # of the first list every variable is driven
    assert set(states) == set(itertools.product((0, *FAILURES[1:]), (0, *FAILURES)))
    assert len(lines) >= FEWEST_CASES


def main():
    # the model follows a list of 4,096 nodes one below the other by as many calls
    sys.setrecursionlimit(20000)
    rng = random.Random(SEED)
    by_hand = compare_values.BY_HAND + compare_inputs.BY_HAND + compare_refusals.BY_HAND
    for title, makers in (("by hand", by_hand), ("drawn", DRAWN), ("more", (from_the_original,))):
        counts = made(makers, rng, lines)
        shown(f"{sum(counts.values())} {title}", counts, key=list(counts).index)
    tally()
    written(CRATE, lines, LARGEST_INPUT)


if __name__ == "__main__":
    main()
