"""How a case of the separation is recorded, and how its answer is written out: for vectors/separate.py and the files
whose cases it brings together.
"""
import contextlib

import model
from comparisons import (LITTLE_WORK, NODE_ROOM, NOT_ALIGNED, OVER_LIMIT, POOL_ROOM, WORK_ROOM, asked, each_tree_once,
                         lent, told, words_of)
from lister import KIND, LARGEST
from trees import listed_otherwise

OUT_OF_BOUNDS = 11
# the model is asked where it ends after so many assignments
MOST_TRIED = 2 ** 12

# ---- a second way to judge: the model tries 2^n assignments, which is too many for n = 30

model_judge = model.judge


def judge_below(tree, n, run):
    """As the model, but only the variables below the root are driven high. A lowest crossing has no other bit: without
    it the answers are the same, and the index is lower."""
    below = sorted(model.variables(tree))
    for row in range(2 ** len(below)):
        driven = dict(zip(below, model.bits_of(row, len(below))))
        cleared = {v: bit * (1 - run // 2 ** v % 2) for v, bit in driven.items()}
        answers = model.answer(tree, driven), model.answer(tree, cleared)
        if answers[0] != answers[1]:
            index = sum(bit * 2 ** v for v, bit in driven.items())
            return [model.CROSSING, index] + model.told(answers[0]) + model.told(answers[1])
    return [model.SEPARATE] + [0] * 7


def judge(tree, n, run):
    """What the model judges, wherever it ends soon; the second way must judge the same."""
    found = judge_below(tree, n, run)
    soon = 2 ** n <= MOST_TRIED or (found[0] == model.CROSSING and found[1] < MOST_TRIED)
    assert not soon or model_judge(tree, n, run) == found, found
    return found


@contextlib.contextmanager
def judged_soon():
    model.judge = judge
    try:
        yield
    finally:
        model.judge = model_judge


# ---- recording a case

lines = {}


def record(answer, given, n, marks, work=None):
    """Records a case by its answer words; the work space is just enough where nothing is said."""
    nodes, pool = given
    room = asked(given) if work is None else work
    assert len(nodes) <= NODE_ROOM and len(pool) <= POOL_ROOM and room <= WORK_ROOM
    assert all(0 <= word <= LARGEST for word in nodes + pool + [n, marks])
    cleared = answer[0] not in (NOT_ALIGNED, OVER_LIMIT, LITTLE_WORK)
    lines[(len(nodes), len(pool), n, marks, room, *answer, int(cleared), *nodes, *pool)] = None


def case(given, n, marks, work=None):
    """Records a case with the model's answer words, and gives them back."""
    room = lent(asked(given) if work is None else work)
    with judged_soon():
        words, left = model.separate(*given, n, marks, room)
    assert left == (room if words[0] in (NOT_ALIGNED, OVER_LIMIT, LITTLE_WORK) else [0] * len(room))
    record(tuple(words), given, n, marks, work)
    return tuple(words)


def expect(answer, given, n, marks, work=None):
    """Records a case whose answer document 01 gives."""
    given = words_of(given)
    got = case(given, n, marks, work)
    assert got == answer, (got, answer, n, marks, given[0][:60], given[1][:60])


def expect_shared(answer, given, n, marks, work=None):
    with each_tree_once():
        expect(answer, given, n, marks, work)


def bounded(given, n):
    """The list with variables below n alone: a tree of such is listed now and then among others, which number 11 would
    refuse."""
    nodes, pool = list(given[0]), given[1]
    for at in range(0, len(nodes), model.WORDS_PER_NODE):
        if nodes[at] == KIND["Var"] and nodes[at + 1] >= n:
            nodes[at:at + 3] = [KIND["Var"], nodes[at + 1] % n, 0] if n else [KIND["Const"], 0, 0]
    return nodes, pool


def expect_ways(answer, tree, n, marks, rng, count=3):
    """The same of a tree, listed plainly and in ways that are drawn: the answer is the tree's."""
    expect(answer, tree, n, marks)
    for _ in range(count):
        expect(answer, bounded(listed_otherwise(tree, rng), n), n, marks)


# ---- answers, written out

SEPARATE = (0,) * 10


def crossing(index, at_index, cleared):
    """The answer at the index, and at the index with its run bits cleared."""
    return (0, 0, 1, index, *at_index, *cleared)


def refused(number, node=0):
    """Document 01: "other fields zero (.. judgement Crossing ..)"."""
    return (number, node, 1, 0, 0, 0, 0, 0, 0, 0)


def scanned(states, marks):
    """The answer of a tree whose bits or failures under assignment 0, 1, .. are these letters."""
    for index, state in enumerate(states):
        other = states[index & ~marks]
        if state != other:
            return crossing(index, told(state), told(other))
    return SEPARATE
