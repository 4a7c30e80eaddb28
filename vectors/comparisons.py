"""How a case of the comparison is recorded, and how its answer is written out: for vectors/compare.py and the files
whose cases it brings together.
"""
import contextlib

import model
from lister import LARGEST, Lister
from networks import STATES, failure_of
from trees import listed, listed_otherwise

# what crates/replay_compare has room for: for each list, and for the work space
NODE_ROOM, POOL_ROOM, WORK_ROOM = 12300, 16400, 98400
BEFORE = 2 ** 63

NOT_ALIGNED, OVER_LIMIT, FAILS, NO_ROOT, NOT_EVALUABLE, MANY_INPUTS, LITTLE_WORK = 1, 2, 6, 7, 8, 9, 10

# ---- recording a case

lines = {}


def asked(*lists):
    """The work space that number 10 asks: "summed over the lists brought"."""
    return sum(model.WORK_PER_NODE * (len(nodes) // model.WORDS_PER_NODE) + model.WORK_PER_POOL * len(pool)
               for nodes, pool in lists)


def lent(count):
    return [BEFORE + place for place in range(count)]


def words_of(given):
    """The words of a list that is given as such, node by node, or as a tree."""
    if isinstance(given, Lister):
        return given.words()
    return listed(given) if isinstance(given, str) or isinstance(given[0], str) else given


def case(first, second, work=None):
    """Records a case and gives back its answer words; the work space is just enough where nothing is said."""
    (nodes1, pool1), (nodes2, pool2) = first, second
    room = asked(first, second) if work is None else work
    assert all(len(nodes) <= NODE_ROOM and len(pool) <= POOL_ROOM for nodes, pool in (first, second))
    assert room <= WORK_ROOM
    assert all(0 <= word <= LARGEST for word in nodes1 + pool1 + nodes2 + pool2)
    words, left = model.compare(nodes1, pool1, nodes2, pool2, lent(room))
    cleared = words[0] not in (NOT_ALIGNED, OVER_LIMIT, LITTLE_WORK)
    assert left == ([0] * room if cleared else lent(room))
    sizes = (len(nodes1), len(pool1), len(nodes2), len(pool2), room)
    lines[(*sizes, *words, int(cleared), *nodes1, *pool1, *nodes2, *pool2)] = None
    return tuple(words)


def expect(answer, first, second, work=None):
    """Records a case whose answer document 01 gives."""
    first, second = words_of(first), words_of(second)
    got = case(first, second, work)
    assert got == answer, (got, answer, first[0][:60], first[1][:60], second[0][:60], second[1][:60])


def expect_ways(answer, first, second, rng, count=3):
    """The same of two trees, listed plainly and in ways that are drawn: the answer is the trees'."""
    expect(answer, first, second)
    for _ in range(count):
        expect(answer, listed_otherwise(first, rng), listed_otherwise(second, rng))


# ---- the model over lists with more paths than can be followed

model_tree = model.Tree


class OneOfItsKind(model_tree):
    """A tree that is equal to no other: told apart from all, and found in a dictionary, without a look at what is below
    it."""
    __slots__ = ()

    def __eq__(self, other):
        return self is other

    def __ne__(self, other):
        return self is not other

    def __hash__(self):
        return id(self)


class Trees:
    """Trees of which there is only one of each, so that equal ones are the same."""

    def __init__(self):
        self.made = {}

    def make(self, kind, datum, children):
        key = (kind, datum, *map(id, children))
        if key not in self.made:
            self.made[key] = OneOfItsKind(kind, datum, children)
        return self.made[key]


def kept(function):
    """The function of a tree and perhaps an assignment, with its answers kept while that is the same: a tree that is
    reached twice is answered once."""
    answers, last = {}, [None]

    def once(tree, *driven):
        if driven and driven[0] is not last[0]:
            answers.clear()
            last[0] = driven[0]
        if id(tree) not in answers:
            answers[id(tree)] = function(tree, *driven)
        return answers[id(tree)]

    return once


@contextlib.contextmanager
def each_tree_once():
    """The model follows every path. Within this it makes each tree once and answers it once: no rule is another."""
    names = ("answer", "shape", "variables", "canonical")
    whole = {name: getattr(model, name) for name in names}
    model.Tree = Trees().make
    for name in names:
        setattr(model, name, kept(whole[name]))
    try:
        yield
    finally:
        model.Tree = model_tree
        for name in names:
            setattr(model, name, whole[name])


def expect_shared(answer, first, second, work=None):
    with each_tree_once():
        expect(answer, first, second, work)


def record(answer, first, second):
    """Records a case of number 0 by the answer that is written out, without the model."""
    sizes = (*map(len, first), *map(len, second), asked(first, second))
    lines[(*sizes, *answer, 1, *first[0], *first[1], *second[0], *second[1])] = None


# ---- answers, written out

EQUIV = (0,) * 10


def value(width, number):
    """State, width and value of a root that has a value."""
    return (0, width, number)


def fails(failure):
    return (failure, 0, 0)


def told(state):
    """The same of a bit written as 0, 1, u, d, r, a."""
    return value(1, int(state)) if state in "01" else fails(failure_of(state))


def differ(index, first, second):
    return (0, 0, 1, index, *first, *second)


def undecided(index, first, second):
    return (0, 0, 2, index, *first, *second)


def refused(number, node=0):
    """Document 01: "other fields zero (verdict Inconclusive ..)"."""
    return (number, node, 2, 0, 0, 0, 0, 0, 0, 0)


def scanned(firsts, seconds):
    """The answer of two trees whose bits or failures under assignment 0, 1, .. are these letters: the first assignment
    under which a side fails or the two differ decides."""
    for index, (a, b) in enumerate(zip(firsts, seconds)):
        if a not in "01" or b not in "01":
            return undecided(index, told(a), told(b))
        if a != b:
            return differ(index, told(a), told(b))
    return EQUIV


FAILING = {"u": "v254", "d": "dc", "r": ("Fdre", "0", "0", "0", "0"), "a": ("Cycle", ("Arg", "p0"))}
# of the first list every variable is driven, so its root never fails with 1
FIRST_STATES = STATES.replace("u", "")


def bit(state):
    """A tree that has this bit, or fails so."""
    return FAILING.get(state, state)
