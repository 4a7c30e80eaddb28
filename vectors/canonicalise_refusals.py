"""Cases of the canonicaliser that refuse, and the space that it is lent (document 01, "Numbers a call answers with").
"""
import itertools

import model
from canonicalise_lists import chain, chain_listed
from canonicals import ALL_ROOM, SHORT_OUTPUT, WIDE_GATE, expect, expect_refused
from compare_refusals import small_lists
from comparisons import (FAILS, LITTLE_WORK, NO_ROOT, NOT_ALIGNED, NOT_EVALUABLE, OVER_LIMIT, WORK_ROOM, asked, bit,
                         words_of)
from lister import KIND, LARGEST, blank_nodes, of
from networks import Network, unevaluable, unverified
from trees import bus, listed, lut

# outputs in which nothing fits, and in which every small answer does
NO_ROOM, SOME_ROOM = (0, 0), (60, 60)
ROOMS = (NO_ROOM, SOME_ROOM)

# ---- numbers 1 to 8


def each_number():
    """Each number that a list alone can bring, with outputs that are long enough and with none, which is 19 behind all
    others."""
    for number, (faulty, node) in small_lists().items():
        for room in ROOMS:
            if number:
                expect_refused(number, node, faulty, room=room)
            elif room == NO_ROOM:
                expect_refused(SHORT_OUTPUT, 0, faulty, room=room)
            if asked(faulty):
                # 1 before 10 before all others
                short = NOT_ALIGNED if number == NOT_ALIGNED else LITTLE_WORK
                expect_refused(short, 0, faulty, work=asked(faulty) - 1, room=room)
    for words, room in itertools.product((1, 2, 4, 5, 7), ROOMS):
        expect_refused(NOT_ALIGNED, 0, of(*[0] * words), work=0, room=room)
        expect_refused(NOT_ALIGNED, 0, of(*[LARGEST] * words), work=40, room=room)
    for kind, room in itertools.product((17, 18, 255, 2 ** 16, LARGEST), ROOMS):
        expect_refused(3, 0, of(kind, LARGEST, LARGEST), room=room)
        expect_refused(3, 1, of(0, 0, 0, kind, 0, 0), room=room)
    for words in ([0, 2, 0], [0, 0, 1], [2, 1, 0], [2, 0, 1], [3, 256, 0], [3, 0, 1], [6, 0, 1], [8, 0, 1], [10, 1, 0],
                  [9, LARGEST, 1], [9, 1, LARGEST], [16, 0, 2], [15, 0, 0], [11, 0, 3], [14, 0, 5], [5, 0, 2]):
        expect_refused(4, 0, of(*words))
        # a node that the root does not reach counts too
        expect_refused(4, 1, of(3, 0, 0, *words, 3, 1, 0))
    for child, room in itertools.product((0, 1, LARGEST), ROOMS):
        expect_refused(5, 0, of(8, 0, 1, pool=[child]), room=room)
        expect_refused(5, 0, of(8, 0, 1, 3, 0, 0, pool=[child]), room=room)
    for pool, room in itertools.product(([], [4], [LARGEST] * 9), ROOMS):
        expect_refused(NO_ROOT, 0, of(pool=pool), room=room)


def verified_and_evaluable():
    """Every sort of 6 and 8; where the root does not reach it, it is no fault."""
    for number, makers in ((FAILS, unverified()), (NOT_EVALUABLE, unevaluable())):
        for at, make in enumerate(makers.values()):
            net = Network()
            fault = make(net)
            expect_refused(number, fault, net, room=ROOMS[at % 2])
            net.var(0)
            expect(of(3, 0, 0), net)
    for program in (0, 8, 2 ** 64 - 1):
        expect_refused(NOT_EVALUABLE, 0, f"p{program}")
    # what would be folded away is a fault all the same
    expect_refused(FAILS, 2, ("And", "0", ("And", ("Arg", "p0"), "1")))
    expect_refused(NOT_EVALUABLE, 2, ("And", "0", ("Not", "p0")))


def programs_in_range():
    """Document 01: "Lut k = 0: p = 1 verifies, 2 doesn't. k = 5: 2^32 - 1 does, 2^32 doesn't. k = 6: every p; k = 7
    never"."""
    five, six, seven = (["v0"] * count for count in (5, 6, 7))
    expect("1", lut(1))
    expect_refused(FAILS, 1, lut(2))
    expect("1", lut(2 ** 32 - 1, *five))
    expect_refused(FAILS, 2, lut(2 ** 32, *five))
    expect("1", lut(2 ** 64 - 1, *six))
    expect(lut(2 ** 63, *six), lut(2 ** 63, *six))
    expect_refused(FAILS, 2, lut(0, *seven))


def args_under_cycles():
    """Document 01: "Arg index 0 at the root fails, under a Cycle verifies, reached both ways fails"."""
    expect_refused(FAILS, 1, ("Arg", "p0"))
    expect(("Cycle", ("Arg", "p0")), ("Cycle", ("Arg", "p0")))
    both = Network()
    arg = both.add("Arg", both.program(0))
    both.add("And", both.add("Cycle", arg), arg)
    expect_refused(FAILS, arg, both)
    # the least number of Cycles counts, be the node that has fewer over it the higher or the lower of two
    for names in itertools.permutations(("Cycle", "Not")):
        both = Network()
        arg = both.add("Arg", both.program(0))
        both.add("And", *[both.add(name, arg) for name in names])
        expect_refused(FAILS, arg, both)
        both.add("Cycle", len(both.nodes) // 3 - 1)
        over = {"Cycle": ("Cycle", ("Arg", "p0")), "Not": lut(1, ("Arg", "p0"))}
        expect(("Cycle", lut(8, *[over[name] for name in names])), both)


def layout_order():
    """The lowest faulty node, and of a node with two faults the lowest number; 14 and 19 behind them all."""
    faults = {3: [17, 0, 1], 4: [KIND["And"], 0, 1], 5: [KIND["Not"], 0, 1]}
    for (number, words), (_, more) in itertools.product(faults.items(), repeat=2):
        expect_refused(number, 1, of(3, 0, 0, *words, 3, 1, 0, *more, pool=[3]), room=NO_ROOM)
    expect_refused(4, 0, of(KIND["And"], 0, 1, pool=[2]))
    # 3, 4 and 5 of a high node before 6, 8 and 14 of a lower
    for number, words in faults.items():
        expect_refused(number, 1, of(9, 0, 0, *words, pool=[1]))
        expect_refused(number, 2, of(1, 0, 0, 8, 1, 1, *words, pool=[2, 0]))
        expect_refused(number, 2, of(10, 0, 0, 8, 1, 1, *words, pool=[2, 0]))
    # 6 of a high node before 8 and 14 of a lower, 8 before 14
    expect_refused(FAILS, 2, of(1, 0, 0, 8, 0, 1, 9, 0, 0, 6, 1, 2, pool=[0, 1, 2]))
    expect_refused(FAILS, 2, of(10, 0, 0, 8, 0, 1, 9, 0, 0, 11, 0, 4, pool=[0, 1, 2, 0]))
    expect_refused(NOT_EVALUABLE, 3, ("And", ("Not", ("Bus",)), "v0"))
    expect_refused(NOT_EVALUABLE, 3, ("Fdre", ("Not", ("Bus",)), ("Not", "p0"), "v0", "v0"))


# ---- number 14 ("a reachable gate (kinds 4 to 8) that isn't a bit")


def wide(name, *arms):
    return (name, "v0", *arms) if name == "Mux" else (name, *arms[:1 if name == "Not" else 2])


GATES = ("Nor", "Mux", "And", "Xor", "Not")


def wide_gates():
    """Each gate over buses of every width, a bus of one and of none too; as the root and below others."""
    for name, width, room in itertools.product(GATES, (0, 1, 2, 3, 64), ROOMS):
        members = bus("10" * 32)[1:1 + width]
        tree = wide(name, ("Bus", *members), ("Bus", *members))
        nodes, _ = listed(tree)
        root = len(nodes) // 3 - 1
        expect_refused(WIDE_GATE, root, tree, room=room)
        if width < 3:
            expect_refused(WIDE_GATE, root, ("Cycle", tree), room=room)
            expect_refused(WIDE_GATE, root, ("Fdre", tree, "v1", "v2", "v3"))
            # the gate over it is one too, and higher
            expect_refused(WIDE_GATE, root, ("Not", tree))
    # a gate of bits over or under a bus is none
    expect(("Bus", lut(1, "v0")), ("Bus", ("Not", "v0")))
    expect(lut(1, ("Fdre", *[("Bus",)] * 4)), ("Not", ("Fdre", *[("Bus",)] * 4)))


def wide_before_folding():
    """14 is asked before folding: of what a constant would choose, and of what it would leave out."""
    one, two = ("Bus", "v0"), ("Bus", "v1")
    expect_refused(WIDE_GATE, 5, ("Mux", "1", one, two))
    expect_refused(WIDE_GATE, 5, ("Mux", "1", one, two), room=NO_ROOM)
    expect_refused(WIDE_GATE, 3, ("Mux", "0", one, one))
    hidden = ("Fdre", ("Not", one), "v0", "v0", "v0")
    for tree in (("And", "0", hidden), lut(0, hidden), ("Mux", "1", "v0", hidden), lut(12, "v0", hidden)):
        words = words_of(tree)[0]
        gate = next(node for node in range(len(words) // 3) if words[3 * node] == KIND["Not"])
        expect_refused(WIDE_GATE, gate, tree)


def lowest_wide_gate():
    """Of several the lowest, whichever kind it is; one that is not reached does not count."""
    for first, second in itertools.product(GATES, repeat=2):
        net = Network()
        low, members = net.var(0), net.var(1)
        wires = net.add("Bus", members, low)
        select = {"Mux": [low]}
        arms = {"Not": 1}
        found = [net.add(name, *select.get(name, []), *[wires] * arms.get(name, 2)) for name in (first, second)]
        net.add("Fdpe", found[1], found[0], low, low)
        expect_refused(WIDE_GATE, found[0], net)
        net.add("Fdpe", found[1], low, low, low)
        expect_refused(WIDE_GATE, found[1], net)
        net.add("Cycle", low)
        expect(("Cycle", "v0"), net)


# ---- number 19 and the outputs ("an output slice shorter than the answer"; "output past the answer is unchanged")

ANSWERS = {"v0": "v0", ("And", "v0", "v1"): lut(8, "v0", "v1"), ("Mux", "1", "v0", "v1"): "v0", ("Bus",): ("Bus",),
           ("And", ("Not", "v1"), "v0"): lut(8, lut(1, "v1"), "v0"), ("Xor", "1", "1"): "0", "dc": "dc",
           ("Fdce", "v0", ("Bus", "v0", "v1"), "1", ("Nor", "0", "v2")):
               ("Fdce", "v0", ("Bus", "v0", "v1"), "1", lut(1, "v2"))}


def output_lengths():
    """Just enough, more, one short in either or both, none, and all but enough in the one for the other."""
    for tree, canonical in ANSWERS.items():
        words, entries = map(len, listed(canonical))
        for more in ((0, 0), (1, 0), (0, 1), (7, 9), (100, 100)):
            expect(canonical, tree, room=(words + more[0], entries + more[1]))
        short = {(words - 1, entries), (words - 1, entries - 1), (words, entries - 1), (0, entries), (words, 0), (0, 0),
                 (words - 1, 1000), (1000, entries - 1), (words - 3, entries), (1, 1), (entries, words)}
        for room in sorted(short):
            if min(room) >= 0 and (room[0] < words or room[1] < entries):
                expect_refused(SHORT_OUTPUT, 0, tree, room=room)
    # the answer counts, and not the given list: longer and shorter than it
    expect("1", ("Not", ("And", "0", ("Xor", "v0", "v1"))), room=(3, 0))
    expect_refused(SHORT_OUTPUT, 0, ("Not", "v0"), room=(6, 1))
    expect_refused(SHORT_OUTPUT, 0, ("Not", "v0"), room=(9, 1))
    expect_refused(SHORT_OUTPUT, 0, ("Not", "v0"), room=(8, 2))
    expect(lut(1, "v0"), ("Not", "v0"), room=(9, 2))
    expect("v0", "v0", room=ALL_ROOM)


def last_of_all():
    """19 behind each other number, and alone."""
    expect_refused(WIDE_GATE, 1, ("Not", ("Bus",)), room=NO_ROOM)
    expect_refused(LITTLE_WORK, 0, ("Not", "v0"), work=asked(listed(("Not", "v0"))) - 1, room=NO_ROOM)
    expect_refused(OVER_LIMIT, 0, of(3, 0, 0, pool=[0] * (model.MOST_POOL + 1)), work=0, room=NO_ROOM)
    expect_refused(SHORT_OUTPUT, 0, ("Not", "v0"), room=NO_ROOM)


# ---- number 10 and the work space


def work_lengths():
    for tree, canonical in list(ANSWERS.items()) + [(bus("10" * 32), bus("10" * 32)), (bit("a"), bit("a"))]:
        exact = asked(listed(tree))
        for more in (0, 1, 7, 100, 1000):
            expect(canonical, tree, work=exact + more)
        for work in sorted({exact - 1, exact - 2, exact // 2, 1, 0}):
            expect_refused(LITTLE_WORK, 0, tree, work=work)
    # entries that no node has ask for work space too
    padded = of(0, 1, 0, pool=[7, 8, 9])
    for work in (22, 23):
        expect("1", padded, work=work)
        expect_refused(SHORT_OUTPUT, 0, padded, work=work, room=(2, 0))
    for work in (21, 20, 16, 0):
        expect_refused(LITTLE_WORK, 0, padded, work=work)
    expect("v0", "v0", work=WORK_ROOM)
    expect_refused(3, 0, of(17, 0, 0), work=WORK_ROOM)
    expect_refused(WIDE_GATE, 1, ("Not", ("Bus",)), work=1000)
    for given, work in ((of(), 0), (of(), 5), (of(pool=[1]), 2)):
        expect_refused(NO_ROOT, 0, given, work=work)
    expect_refused(LITTLE_WORK, 0, of(pool=[1]), work=1)


# ---- "At most 4,096 nodes and 16,384 pool entries", of the given list and of the canonical


def given_at_the_limits():
    over, under = of(*blank_nodes(model.MOST_NODES + 1)), of(*blank_nodes(model.MOST_NODES))
    # 2 before 10 and all others; 1 before 2
    expect_refused(OVER_LIMIT, 0, over, work=WORK_ROOM, room=ALL_ROOM)
    expect_refused(NOT_ALIGNED, 0, of(*blank_nodes(model.MOST_NODES + 1, 2)), work=0)
    expect("0", under)
    expect_refused(LITTLE_WORK, 0, under, work=asked(under) - 1)
    expect("v0", of(3, 0, 0, pool=[0] * model.MOST_POOL))
    expect_refused(OVER_LIMIT, 0, of(17, 0, 0, pool=[0] * (model.MOST_POOL + 1)), work=WORK_ROOM)
    # a bus of 64 members, and of 65
    expect(bus("10" * 32), bus("10" * 32))
    expect_refused(4, 2, ("Bus", *"10" * 32, "1"))


def nodes_at_the_limit():
    """v0 under 4,094 Nots has 4,096 distinct subtrees, a Program among them: just a list. One Not more, and it is none,
    though the outputs would hold it."""
    most = model.MOST_NODES - 2
    words, entries = map(len, chain_listed(most))
    assert words == model.WORDS_PER_NODE * model.MOST_NODES
    expect_refused(SHORT_OUTPUT, 0, chain(most), room=(words - 1, entries))
    expect_refused(SHORT_OUTPUT, 0, chain(most + 1), room=ALL_ROOM)


def many_buses(members, *gates):
    """250 distinct buses of 64 members below registers, and one of so many members and two gates below the root: 16,336
    entries and those of the last three."""
    net = Network()
    bits = [net.var(0), net.var(1)]
    buses = [net.add("Bus", *[bits[number >> place & 1] for place in range(64)]) for number in range(250)]
    top = net.add("Fdre", *buses[:4])
    for at in range(4, 250, 3):
        top = net.add("Fdre", top, *buses[at:at + 3])
    last = net.add("Bus", *[bits[1]] * members)
    net.add("Fdre", top, last, *[net.add("Not", bits[0]) if gate else bits[0] for gate in gates])
    return net


def entries_at_the_limit():
    """A Not has one entry and its Lut two: 16,383 given are 16,384, and 16,384 are 16,385."""
    most = model.MOST_POOL
    for members, answer in ((46, 0), (47, SHORT_OUTPUT)):
        net = many_buses(members, True, False)
        assert len(net.pool) == most - 1 + (members - 46)
        if answer:
            expect_refused(answer, 0, net, room=ALL_ROOM)
        else:
            expect(listed_buses(members), net)


def listed_buses(members):
    """The canonical list of `many_buses` with one Not: its leaves and buses are met in the order of the registers that
    have them, v0 before v1 as the first bus has v0 alone."""
    net = Network()
    low = net.var(0)
    below = [net.add("Bus", *[low] * 64)]
    bits = low, net.var(1)
    for number in range(1, 250):
        below.append(net.add("Bus", *[bits[number >> place & 1] for place in range(64)]))
        if len(below) == 4:
            below = [net.add("Fdre", *below)]
    last = net.add("Bus", *[bits[1]] * members)
    gate = net.add("Lut", net.program(1), low)
    net.add("Fdre", *below, last, gate, low)
    return net.words()


BY_HAND = (
    each_number, verified_and_evaluable, programs_in_range, args_under_cycles, layout_order, wide_gates,
    wide_before_folding, lowest_wide_gate, output_lengths, last_of_all, work_lengths, given_at_the_limits,
    nodes_at_the_limit, entries_at_the_limit)
