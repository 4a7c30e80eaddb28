"""How a case of the canonicaliser is recorded, and how its answer is written out: for vectors/canonicalise.py and the
files whose cases it brings together.
"""
import model
from comparisons import (LITTLE_WORK, NODE_ROOM, NOT_ALIGNED, OVER_LIMIT, POOL_ROOM, WORK_ROOM, asked, each_tree_once,
                         lent, words_of)
from lister import LARGEST
from trees import listed_otherwise

WIDE_GATE, SHORT_OUTPUT = 14, 19
# what an output holds before the call, place by place, so that a word that is written is told from one that is not
OUT_BEFORE = 2 ** 31
OUT = [OUT_BEFORE + place for place in range(max(NODE_ROOM, POOL_ROOM))]
# the given and the canonical list are compared where so few variables are below the root of so few nodes
MOST_DRIVEN, MOST_COMPARED = 6, 128
NOT_ASKED = 3
# the model follows every path of so few nodes besides
FEW_NODES = 12

# ---- what the model says


def written(given, work, room):
    """The answer words, and the words that the canonicaliser writes to each of two outputs of this length."""
    call = *given, work, OUT[:room[0]], OUT[:room[1]]
    with each_tree_once():
        outcome = model.canonicalise(*call)
    if len(given[0]) <= model.WORDS_PER_NODE * FEW_NODES:
        assert outcome == model.canonicalise(*call)
    answer, left, *outputs = outcome
    assert left == (work if answer[0] in (NOT_ALIGNED, OVER_LIMIT, LITTLE_WORK) else [0] * len(work))
    assert all(out[count:] == OUT[count:length] for out, count, length in zip(outputs, answer[2:], room))
    return answer, [out[:count] for out, count in zip(outputs, answer[2:])]


def verdict_of(given, canonical):
    """What a comparison of the given list with the canonical one says. It tries every assignment: Equiv says that they
    have the same value under each. A failure that is folded away makes it Inconclusive."""
    if len(given[0]) > model.WORDS_PER_NODE * MOST_COMPARED:
        return NOT_ASKED
    with each_tree_once():
        if len(model.variables(model.Listed(*given).trees[-1])) > MOST_DRIVEN:
            return NOT_ASKED
        answer, _ = model.compare(*given, *canonical, lent(asked(given, canonical)))
    assert answer[0] == 0 and answer[2] != model.NOT_EQUIV, (given, canonical)
    return answer[2]


# ---- recording a case

lines = {}
ALL_ROOM = NODE_ROOM, POOL_ROOM


def room_for(given, work):
    """As much output as the answer takes; where there is none, as much as the given list does."""
    answer, _ = written(given, work, ALL_ROOM)
    if answer[0] == 0:
        return tuple(answer[2:])
    return min(len(given[0]), NODE_ROOM), min(len(given[1]), POOL_ROOM)


def case(given, work=None, room=None):
    """Records a case, and gives back number and node and the canonical list. Work space and outputs are just enough
    where nothing is said."""
    given = words_of(given)
    nodes, pool = given
    space = lent(asked(given) if work is None else work)
    room = room_for(given, space) if room is None else room
    assert len(nodes) <= NODE_ROOM and len(pool) <= POOL_ROOM and len(space) <= WORK_ROOM
    assert room[0] <= NODE_ROOM and room[1] <= POOL_ROOM
    assert all(0 <= word <= LARGEST for word in nodes + pool)
    answer, canonical = written(given, space, room)
    verdict = verdict_of(given, canonical) if answer[0] == 0 else NOT_ASKED
    cleared = answer[0] not in (NOT_ALIGNED, OVER_LIMIT, LITTLE_WORK)
    sizes = len(nodes), len(pool), len(space), *room
    lines[(*sizes, *answer, verdict, int(cleared), *nodes, *pool, *canonical[0], *canonical[1])] = None
    return tuple(answer[:2]), tuple(canonical)


def expect(canonical, given, work=None, room=None):
    """Records a case whose canonical list document 01 gives: as words, or as a tree, whose plainest list it is."""
    expected = words_of(canonical)
    answer, got = case(given, work, room)
    assert answer == (0, 0) and got == expected, (answer, got, expected, words_of(given)[0][:60])


def expect_refused(number, node, given, work=None, room=None):
    """Records a case that document 01 refuses with this number at this node."""
    answer, got = case(given, work, room)
    assert answer == (number, node) and got == ([], []), (answer, number, node, words_of(given)[0][:60])


def expect_ways(canonical, tree, rng, count=3):
    """The same of a tree, listed plainly and in ways that are drawn: the canonical list is the tree's."""
    expect(canonical, tree)
    for _ in range(count):
        expect(canonical, listed_otherwise(tree, rng))


def stays(tree, rng, count=1):
    """A tree that is canonical already, in whatever way it is listed."""
    expect_ways(tree, tree, rng, count)
