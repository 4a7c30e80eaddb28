"""Cases of the comparison that refuse, and the space that it is lent (document 01, "Numbers a call answers with").
"""
import itertools

import model
from comparisons import (EQUIV, FAILS, LITTLE_WORK, MANY_INPUTS, NO_ROOT, NOT_ALIGNED, NOT_EVALUABLE, OVER_LIMIT,
                         WORK_ROOM, asked, differ, expect, fails, refused, undecided, value)
from lister import KIND, LARGEST, blank_nodes, of
from networks import REGISTER, UNDRIVEN, Network, unevaluable, unverified
from trees import bus, joined, listed, listed_otherwise, variables

# ---- numbers 1 to 8 of either list


def small_lists():
    """For each number that a list alone can bring, a list and the node that is named; 0 for one that is sound.

    That of 7 has an entry, so that its work space can be too little."""
    found = {0: (of(3, 0, 0), 0), 1: (of(3, 0, 0, 0), 0), 3: (of(17, 0, 0), 0), 4: (of(3, 0, 0, 0, 2, 0), 1),
             5: (of(KIND["Not"], 0, 1, pool=[0]), 0), 7: (of(pool=[4]), 0)}
    for number, make in ((6, unverified()["Bus of a Program"]), (8, unevaluable()["Not of a Program"])):
        net = Network()
        node = make(net)
        found[number] = net.words(), node
    return found


SOUND = ("And", "v0", "v1")


def either_list():
    """Each number in the first list alone, and in the second alone."""
    for number, (faulty, node) in small_lists().items():
        if number:
            expect(refused(number, node), faulty, SOUND)
            expect(refused(number, node), SOUND, faulty)
            expect(refused(number, node), faulty, faulty)
    for words in (1, 2, 4, 5):
        expect(refused(NOT_ALIGNED), of(*[0] * words), SOUND, work=0)
        expect(refused(NOT_ALIGNED), SOUND, of(*[LARGEST] * words), work=0)
    for kind in (17, 18, 255, LARGEST):
        expect(refused(3), of(kind, LARGEST, LARGEST), SOUND)
        expect(refused(3, 1), SOUND, of(0, 0, 0, kind, 0, 0))
    for words in ([0, 2, 0], [0, 0, 1], [2, 1, 0], [3, 256, 0], [3, 0, 1], [6, 0, 1], [8, 0, 1], [10, 1, 0],
                  [9, LARGEST, 1]):
        expect(refused(4), of(*words), SOUND)
        expect(refused(4), SOUND, of(*words))
    for child in (0, 1, LARGEST):
        expect(refused(5, 0), of(8, 0, 1, pool=[child]), SOUND)
        expect(refused(5, 0), SOUND, of(8, 0, 1, 3, 0, 0, pool=[child]))
    for pool in ([], [4], [LARGEST] * 9):
        expect(refused(NO_ROOT), of(pool=pool), SOUND)
        expect(refused(NO_ROOT), SOUND, of(pool=pool))
        expect(refused(NO_ROOT), of(pool=pool), of(pool=pool))


def verified_and_evaluable():
    """Every sort of 6 and 8, in the first list and in the second; where the root does not reach it, it is no fault."""
    for number, makers in ((FAILS, unverified()), (NOT_EVALUABLE, unevaluable())):
        for make in makers.values():
            net = Network()
            fault = make(net)
            expect(refused(number, fault), net, SOUND)
            expect(refused(number, fault), SOUND, net)
            net.const(1)
            expect(EQUIV, net, "1")
            expect(differ(0, value(1, 0), value(1, 1)), "0", net)
    for program in (0, 2 ** 64 - 1):
        expect(refused(NOT_EVALUABLE), f"p{program}", SOUND)
        expect(refused(NOT_EVALUABLE), SOUND, f"p{program}")
        # equal, and not compared
        expect(refused(NOT_EVALUABLE), f"p{program}", f"p{program}")


def two_faulty_lists():
    """Document 01: "1 and 2 for each list, first list first; 10; then list by list 3, 4, 5 .., 6, 7, 8"."""
    lists = small_lists()
    for (one, (first, node)), (two, (second, other)) in itertools.product(lists.items(), repeat=2):
        for short in (0, 1):
            found = [(one == 1 or two == 1, refused(1)), (short, refused(LITTLE_WORK)), (one, refused(one, node)),
                     (two, refused(two, other)), (True, EQUIV)]
            answer = next(each for holds, each in found if holds)
            expect(answer, first, second, work=asked(first, second) - short)
    # "Comparing an empty list with 17,0,0 is 7, not 3"; turned round it is 3
    expect(refused(NO_ROOT), of(), of(17, 0, 0))
    expect(refused(3), of(17, 0, 0), of())
    # 8 of the first before 3 of the second, 6 of the first before 4 of the second
    expect(refused(NOT_EVALUABLE), "p0", of(17, 0, 0))
    expect(refused(FAILS), of(9, 0, 0), of(0, 2, 0))


def layout_order():
    """The lowest faulty node, and of a node with two faults the lowest number, in either list."""
    faults = {3: [17, 0, 1], 4: [KIND["And"], 0, 1], 5: [KIND["Not"], 0, 1]}
    for (number, words), (_, more) in itertools.product(faults.items(), repeat=2):
        faulty = of(3, 0, 0, *words, 3, 1, 0, *more, pool=[3])
        expect(refused(number, 1), faulty, SOUND)
        expect(refused(number, 1), SOUND, faulty)
    expect(refused(4, 0), SOUND, of(KIND["And"], 0, 1, pool=[2]))
    # number 3 of a high node before 6 and 8 of a lower
    for late in (of(9, 0, 0, 17, 0, 0), of(1, 0, 0, 8, 0, 1, 17, 0, 0, pool=[0])):
        expect(refused(3, len(late[0]) // 3 - 1), late, SOUND)
        expect(refused(3, len(late[0]) // 3 - 1), SOUND, late)


def nine_in_its_place(rng):
    """Behind 8 of the second list, and behind the tree test."""
    names = variables(range(31))
    many = joined("And", names)
    for number, (faulty, node) in small_lists().items():
        if number:
            expect(refused(number, node), many, faulty)
            expect(refused(number, node), faulty, many)
    expect(refused(MANY_INPUTS), many, SOUND)
    expect(undecided(3, value(1, 1), fails(UNDRIVEN)), SOUND, many)
    exact = asked(listed(many), listed(many))
    expect(refused(LITTLE_WORK), many, many, work=exact - 1)
    expect(EQUIV, many, many, work=exact)
    for make in unevaluable().values():
        net = Network()
        fault = make(net)
        expect(refused(NOT_EVALUABLE, fault), listed_otherwise(("Bus", *names), rng), net)


# ---- number 10 ("summed over the lists brought") and the work space


def work_lengths():
    register = ("Fdre", "v0", "v1", "dc", "0")
    pairs = [("0", "0", EQUIV), ("0", "1", differ(0, value(1, 0), value(1, 1))), (SOUND, ("And", "v1", "v0"), EQUIV),
             (SOUND, "v0", differ(1, value(1, 0), value(1, 1))),
             ("v0", SOUND, undecided(1, value(1, 1), fails(UNDRIVEN))),
             (register, register, EQUIV), (register, "0", undecided(0, fails(REGISTER), value(1, 0))),
             (bus("10" * 32), "1", differ(0, value(64, int("10" * 32, 2)), value(1, 1)))]
    for first, second, answer in pairs:
        one, two = asked(listed(first)), asked(listed(second))
        for more in (0, 1, 7, 100, 1000):
            expect(answer, first, second, work=one + two + more)
        # one short; enough for one list alone, for the other, for neither
        for room in sorted({one + two - 1, one, two, max(one, two) - 1, (one + two) // 2, 1, 0}):
            expect(refused(LITTLE_WORK), first, second, work=room)
    # entries that no node has ask for work space too, in either list
    padded, plain = of(0, 1, 0, pool=[7, 8, 9]), of(0, 1, 0)
    for first, second in ((padded, plain), (plain, padded)):
        expect(EQUIV, first, second, work=38)
        expect(refused(LITTLE_WORK), first, second, work=37)
    expect(EQUIV, padded, padded, work=44)
    expect(refused(LITTLE_WORK), padded, padded, work=43)
    # the most that there is room for
    expect(EQUIV, "0", "0", work=WORK_ROOM)
    expect(refused(3), of(17, 0, 0), "0", work=WORK_ROOM)
    for first, second, room in ((of(), of(), 0), (of(), of(), 5), (of(pool=[1]), of(pool=[2]), 4)):
        expect(refused(NO_ROOT), first, second, work=room)
    expect(refused(LITTLE_WORK), of(pool=[1]), of(pool=[2]), work=3)


# ---- "At most 4,096 nodes and 16,384 pool entries"


def over_the_limits():
    """Number 2 with other numbers, on either side; too little work space besides."""
    nodes, pool = of(*blank_nodes(model.MOST_NODES + 1)), of(0, 0, 0, pool=[0] * (model.MOST_POOL + 1))
    lists = small_lists()
    for number, (other, _) in lists.items():
        expect(refused(NOT_ALIGNED if number == 1 else OVER_LIMIT), other, nodes, work=0)
    # 2 of the first comes before 1 of the second
    for number in (1, 3):
        expect(refused(OVER_LIMIT), nodes, lists[number][0], work=0)
    expect(refused(OVER_LIMIT), pool, lists[0][0])
    # of one list 1 comes before 2
    expect(refused(NOT_ALIGNED), "0", of(*blank_nodes(model.MOST_NODES + 1, 2)), work=0)


def at_the_limits():
    full, padded = of(*blank_nodes(model.MOST_NODES)), of(0, 0, 0, pool=[0] * model.MOST_POOL)
    expect(EQUIV, full, "0")
    expect(refused(LITTLE_WORK), "1", full, work=65551)
    expect(EQUIV, "0", padded, work=32800)


BY_HAND = (
    either_list, verified_and_evaluable, two_faulty_lists, layout_order, nine_in_its_place, work_lengths,
    over_the_limits, at_the_limits)
