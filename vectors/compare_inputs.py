"""Cases of the comparison that are about what the roots reach: which variables are inputs and which bit drives each, 30
of them and more, and nodes that are reached along very many paths (document 01, "Comparison and separation").
"""
import itertools

import model
from comparisons import (EQUIV, MANY_INPUTS, bit, differ, expect, expect_shared, expect_ways, fails, record, refused,
                         scanned, undecided, value)
from lister import KIND, of
from networks import ARG, BINARY, DONT_CARE, REGISTER, UNDRIVEN, Network
from trees import bus, joined, joined_right, listed, listed_otherwise, lut, minterm, variables

# ---- variables ("the j-th smallest variable below the first root; the second list's others are undriven")


def own_variables(rng):
    """Variables that only the second list has: a failure, unless it is absorbed or not looked at."""
    undriven, zero, one = fails(UNDRIVEN), value(1, 0), value(1, 1)
    for number in (1, 5, 254, 255):
        own = f"v{number}"
        expect(undecided(0, zero, undriven), "0", own)
        expect(undecided(0, zero, undriven), "v0", own)
        expect(undecided(1, one, undriven), "v0", ("And", "v0", own))
        expect(undecided(0, zero, undriven), "v0", ("Xor", "v0", own))
        expect(undecided(0, zero, undriven), "v0", lut(12, "v0", own))
        expect(undecided(0, zero, undriven), "v0", ("Mux", own, "v0", "v0"))
        expect(undecided(1, one, undriven), "v0", ("Mux", "v0", own, "0"))
        expect(undecided(0, one, undriven), ("Not", "v0"), ("Nor", "v0", own))
        expect(differ(0, one, zero), ("Not", "v0"), ("And", "v0", own))
        expect(undecided(1, one, fails(REGISTER)), "v0", ("Mux", "v0", ("Fdre", *[own] * 4), "0"))
        nothing = ("Nor", own, "1")
        absorbed = [("0", ("And", "0", own)), ("0", nothing), ("v0", ("Mux", nothing, own, "v0")),
                    ("v0", ("Xor", "v0", nothing)), (("And", "v0", "v2"), ("And", ("Xor", "v0", nothing), "v2")),
                    ("v0", ("Mux", "v0", "1", ("And", "v0", own))), ("1", ("Mux", "1", "1", own))]
        for first, second in absorbed:
            expect_ways(EQUIV, first, second, rng, 2)


def fewer_variables(rng):
    """Variables that only the first list has are driven, and count."""
    for first, second in ((("Xor", "v3", "v3"), "0"), (("And", "v0", ("Nor", "v1", "1")), "0"),
                          (("Mux", "v9", "v4", "v4"), "v4"), (lut(10, "v8", "v4"), "v4"), (("And", "v1", "0"), "0")):
        expect_ways(EQUIV, first, second, rng, 4)
    expect_ways(differ(2, value(1, 0), value(1, 1)), ("And", "v17", "v255"), "v255", rng)
    expect_ways(differ(1, value(1, 0), value(1, 1)), ("And", "v17", "v255"), "v17", rng)
    expect_ways(differ(3, value(1, 1), value(1, 0)), ("And", "v17", "v255"), "0", rng)
    expect_ways(EQUIV, ("Xor", "v0", "v255"), ("Xor", "v255", "v0"), rng)
    # they count also where no value hangs on them: v4 and v5 are bits 0 and 1, and v9 is bit 2
    for idle in (("Fdre", *["v4", "v5"] * 2), lut(0, "v4", "v5"), ("And", "v4", "v5")):
        first = ("Mux", "v9", "1", ("And", "0", idle))
        expect_ways(differ(4, value(1, 1), value(1, 0)), first, "0", rng)
        expect_ways(undecided(4, value(1, 1), fails(DONT_CARE)), first, ("Mux", "v9", "dc", "0"), rng)


def no_variables(rng):
    """One assignment, number 0."""
    trees = {"0": ["0", ("Not", "1"), ("And", "1", "0"), lut(0), ("Nor", "dc", "1"), ("And", bit("r"), "0")],
             "1": ["1", ("Not", "0"), ("Xor", "1", "0"), lut(1), ("Mux", "0", "dc", "1"), ("Cycle", "1")],
             "d": ["dc", ("Not", "dc"), ("And", "1", "dc")], "r": [bit("r"), ("Fdce", *["dc"] * 4)],
             "a": [bit("a"), ("Cycle", ("Cycle", ("Arg", "p1")))]}
    for (first, ones), (second, others) in itertools.product(trees.items(), repeat=2):
        for tree, other in itertools.product(ones, others):
            expect(EQUIV if tree == other else scanned(first, second), tree, other)
    for tree in trees["0"] + trees["1"]:
        expect_ways(undecided(0, value(1, int(tree in trees["1"])), fails(UNDRIVEN)), tree, "v0", rng, 1)


def unreached_variables(rng):
    """Variables that the first root does not reach are no inputs: they neither move a bit nor count for number 9."""
    for count in (1, 2, 40, 256):
        strangers = [word for number in range(count) for word in (KIND["Var"], number, 0)]
        own = [KIND["Var"], 200, 0]
        one = of(*strangers, *own)
        expect(differ(1, value(1, 1), value(1, 0)), one, "0")
        expect(undecided(1, value(1, 1), fails(DONT_CARE)), one, ("Mux", "v200", "dc", "0"))
        expect(EQUIV, one, "v200")
        expect(EQUIV, one, ("Not", ("Not", "v200")))
        if count <= 200:
            # in the second list they are undriven, and not looked at
            expect(EQUIV, ("Cycle", "v200"), one)
            expect(undecided(0, value(1, 0), fails(UNDRIVEN)), "v0", one)
    # below nodes that are not reached themselves
    net = Network()
    low = net.var(0)
    net.add("Not", net.add("And", low, net.var(1)))
    net.add("And", net.var(7), net.var(200))
    expect(differ(2, value(1, 0), value(1, 1)), net, "v200")
    expect(differ(1, value(1, 0), value(1, 1)), net, "v7")
    # one variable by several nodes is one input
    expect_ways(differ(1, value(1, 0), value(1, 1)), ("And", "v3", ("And", "v3", "v4")), "v3", rng)
    several = of(3, 5, 0, 3, 5, 0, 3, 2, 0, 3, 2, 0, 6, 0, 2, 6, 2, 2, 7, 4, 2, pool=[0, 1, 2, 3, 4, 5])
    expect(EQUIV, several, ("Xor", "v2", "v5"))
    expect(differ(1, value(1, 1), value(1, 0)), several, "v5")
    expect(differ(2, value(1, 1), value(1, 0)), several, "v2")


# ---- many variables: "30 variables with a difference at a low assignment: NotEquiv there; 31 is 9, unless the trees
# are equal"

LOW = (0, 1, 2, 5, 1000, 2047)


def exactly_thirty(rng):
    for numbers in (range(30), range(226, 256), range(3, 243, 8)):
        names = variables(numbers)
        every, total = joined("And", names), joined("Xor", names)
        # the j-th smallest of the eleven lowest is the j-th smallest of all
        low = sorted(numbers)[:11]
        for index in LOW:
            spike, ones = minterm(low, index), index.bit_count() % 2
            expect(differ(index, value(1, 0), value(1, 1)), every, spike)
            expect(differ(index, value(1, ones), value(1, 1 - ones)), total, ("Xor", total, spike))
            expect(undecided(index, value(1, ones), fails(DONT_CARE)), total, ("Mux", spike, "dc", total))
        expect(EQUIV, every, listed_otherwise(every, rng))
        # the lowest of them against all
        expect(differ(1, value(1, 0), value(1, 1)), every, names[0])
        expect(differ(0, value(30, 0), value(30, 1)), ("Bus", *names), ("Bus", *["0"] * 29, "1"))
        expect(differ(1, value(30, 2 ** 29), value(30, 0)), ("Bus", *names), ("Bus", *["0"] * 30))
        # the second list may have more than thirty
        expect(undecided(0, value(1, 0), fails(UNDRIVEN)), total, ("Xor", total, "v1" if numbers[0] else "v250"))


def over_thirty(rng):
    """Never Equiv unless the trees are equal: at 31 the Rust's range is empty."""
    for count in (31, 32, 33, 64, 128, 255, 256):
        names = variables(range(count))
        same = joined("And", names)
        expect(refused(MANY_INPUTS), same, "0")
        expect(EQUIV, same, listed_otherwise(same, rng))
        if count <= 33:
            for name in ("And", "Xor", "Nor"):
                tree = joined(name, names)
                for second in (joined_right(name, names), ("Cycle", tree), "dc", names[0]):
                    expect(refused(MANY_INPUTS), tree, second)
                expect(EQUIV, listed_otherwise(tree, rng), listed_otherwise(tree, rng))
    # a bus of 31 to 64, and a register over such
    for count in (30, 31, 32, 64):
        names = variables(rng.sample(range(256), count))
        whole, member = ("Bus", *names), ("Bus", *names[:-1], ("Cycle", names[-1]))
        expect(EQUIV, whole, listed_otherwise(whole, rng))
        if count > 30:
            expect(refused(MANY_INPUTS), whole, member)
            expect(refused(MANY_INPUTS), whole, "0")
        register = ("Fdre", whole, "0", "dc", whole)
        other = ("Fdre", member, "0", "dc", whole)
        expect(EQUIV, register, listed_otherwise(register, rng))
        expect(refused(MANY_INPUTS) if count > 30 else undecided(0, fails(REGISTER), fails(REGISTER)), register, other)


def what_counts_for_nine(rng):
    """Every variable below the first root, and none of the second's."""
    names = variables(range(31))
    every = joined("And", names)
    absorbed = ("And", "0", every)
    expect(refused(MANY_INPUTS), absorbed, "0")
    expect(EQUIV, "0", absorbed)
    expect(undecided(0, value(1, 1), fails(UNDRIVEN)), "1", every)
    expect(undecided(0, value(1, 0), fails(UNDRIVEN)), "v31", every)
    expect(refused(MANY_INPUTS), ("Mux", "1", "0", every), "0")
    expect(refused(MANY_INPUTS), ("Mux", "1", "dc", every), "0")
    thirty = joined("And", names[:30])
    # a variable that occurs again is no other one; one more is
    expect(differ(1, value(1, 0), value(1, 1)), ("And", thirty, thirty), "v0")
    expect(differ(1, value(1, 0), value(1, 1)), ("And", thirty, "v29"), "v0")
    expect(refused(MANY_INPUTS), ("And", thirty, "v255"), "v0")
    # 256 variables of which 30 are reached, and of which 31 are
    nodes = [word for number in range(256) for word in (KIND["Var"], number, 0)]
    for count, answer in ((30, differ(1, value(30, 1), value(30, 0))), (31, refused(MANY_INPUTS))):
        members = rng.sample(range(256), count)
        # the smallest is the last member, and so bit 0
        members.sort(reverse=True)
        expect(answer, of(*nodes, KIND["Bus"], 0, count, pool=members), bus("0" * count))


def last_assignments():
    """All but the last assignment agree: And of n variables against false is NotEquiv at 2^n - 1."""
    for count in list(range(1, 13)) + [14]:
        names = variables(range(0, 2 * count, 2))
        every = joined("And", names)
        expect_shared(differ(2 ** count - 1, value(1, 1), value(1, 0)), every, "0")
        expect_shared(undecided(2 ** count - 1, value(1, 1), fails(DONT_CARE)), every, ("Mux", every, "dc", every))
        if count > 2:
            expect_shared(EQUIV, every, joined_right("And", names))
            expect_shared(EQUIV, joined("Xor", names), joined_right("Xor", names))


def all_of_many():
    """2^16 and 2^18 assignments, of which none decides, or the last. The model would take minutes over them, and is not
    asked: that And and Xor may be joined from either end is known without it."""
    for count in (16, 18):
        names = variables(range(count))
        for answer, first, second in (
                (EQUIV, joined("And", names), joined_right("And", names)),
                (EQUIV, joined("Xor", names), joined_right("Xor", names)),
                (differ(2 ** count - 1, value(1, 1), value(1, 0)), joined("And", names), "0")):
            record(answer, listed(first), listed(second))


# ---- deep sharing: 2^n paths, which the tree test must not follow ("Walks over shared nodes: one pass by number with a
# table")


def column(name, length, bottom="v0", at=None, between=("Not",)):
    """Each node over the one below twice; at one height, where it is said, these nodes between."""
    net = Network()
    nodes, pool = listed(bottom)
    net.nodes, net.pool = list(nodes), list(pool)
    top = len(nodes) // 3 - 1
    for height in range(length):
        if height == at:
            for each in between:
                top = net.add(each, top)
        top = net.add(name, top, top)
    return net


def columns(name, length, left="v0", right="v0"):
    """The same with two nodes at each height, each over both of those below: twice the nodes."""
    net = Network()
    tops = []
    for tree in (left, right):
        nodes, pool = listed(tree)
        base, start = len(net.nodes) // 3, len(net.pool)
        for kind, first, count in model.node_words(nodes):
            inner = model.KINDS[kind] not in model.LEAVES
            net.raw(kind, first + start if inner else first, count)
        net.pool += [base + child for child in pool]
        tops.append(len(net.nodes) // 3 - 1)
    a, b = tops
    for _ in range(length - 1):
        a, b = net.add(name, a, b), net.add(name, b, a)
    net.add(name, a, b)
    return net


LENGTHS = (2, 10, 40, 100, 300)


def deep_and_equal():
    for length in LENGTHS:
        small = length <= 40
        for name, bottom in itertools.product(BINARY, ("v0", "dc")) if small else (("And", "v0"),):
            one, two = column(name, length, bottom), columns(name, length, bottom, bottom)
            expect_shared(EQUIV, one, two)
            expect_shared(EQUIV, two, one)
            if small:
                expect_shared(EQUIV, two, two)
    # a bottom of more than 30 variables; of failures; and of a Cycle's Arg
    for bottom in (joined("Xor", variables(range(40))), ("Fdre", "v0", "v1", "dc", "0"), bit("a"), ("Bus", "v0", "dc")):
        expect_shared(EQUIV, column("Nor", 100, bottom), columns("Nor", 100, bottom, bottom))
    # the Arg far below the Cycles, reached along every path
    for cycles in (1, 2):
        net = column("And", 60, ("And", "0", "1"))
        pair = Network()
        top = pair.add("Arg", pair.program(cycles - 1))
        for _ in range(60):
            top = pair.add("And", top, top)
        for _ in range(cycles):
            top = pair.add("Cycle", top)
        expect_shared(EQUIV, pair, pair)
        expect_shared(undecided(0, value(1, 0), fails(ARG)), net, pair)


def deep_and_unequal():
    """Unequal at the lowest leaf, or in the middle: And gives what is below it, Xor 0, Nor its complement each time."""
    zero, one = value(1, 0), value(1, 1)
    for length in (10, 40, 300):
        small, chain = length < 300, column("And", length)
        lowest = {"1": differ(0, zero, one), ("Cycle", "v0"): EQUIV, "0": differ(1, one, zero),
                  "v1": undecided(0, zero, fails(UNDRIVEN)), ("Not", "v0"): differ(0, zero, one)}
        for bottom in list(lowest)[:5 if small else 2]:
            expect_shared(lowest[bottom], chain, column("And", length, bottom))
        # one of the two lowest alone: along half of the paths
        half = {("Not", ("Not", "v0")): EQUIV, "0": differ(1, one, zero), "1": EQUIV,
                "dc": undecided(1, one, fails(DONT_CARE)), "v1": undecided(1, one, fails(UNDRIVEN))}
        for right in list(half)[:5 if small else 2]:
            expect_shared(half[right], chain, columns("And", length, "v0", right))
        for at in (1, length // 2, length - 1) if small else (length // 2,):
            expect_shared(differ(0, zero, one), chain, column("And", length, at=at))
            expect_shared(EQUIV, chain, column("And", length, at=at, between=("Not", "Not")))
        # the other way round
        expect_shared(differ(1, zero, one), columns("And", length, "v0", "0"), chain)
        expect_shared(EQUIV, column("And", length, at=length // 2, between=("Cycle",)), chain)


def deep_and_other_gates():
    zero = value(1, 0)
    for length in (10, 31, 32):
        turned = length % 2
        expect_shared(EQUIV, column("Xor", length), column("Xor", length, ("Not", "v0")))
        expect_shared(undecided(0, zero, fails(DONT_CARE)), column("Xor", length), column("Xor", length, "dc"))
        answer = differ(0, value(1, turned), value(1, 1 - turned))
        expect_shared(answer, column("Nor", length), column("Nor", length, ("Not", "v0")))
        # one more level
        expect_shared(answer, column("Nor", length), column("Nor", length + 1))
        expect_shared(EQUIV, column("And", length), column("And", length + 1))
    # over 30 variables at the bottom, the trees unequal there
    many, other = (join("Xor", variables(range(31))) for join in (joined, joined_right))
    for length in (10, 100):
        expect_shared(refused(MANY_INPUTS), column("And", length, many), column("And", length, other))
        expect_shared(refused(MANY_INPUTS), columns("And", length, many, many), columns("And", length, many, other))


def long_chains():
    """As many nodes as a list may have, one below the other; the other list is short."""
    for length, place in ((model.MOST_NODES - 1, 0), (1500, 1)):
        net = Network()
        top = net.var(0)
        for _ in range(length):
            top = net.add("Not", top)
        short = ("Not", "v0") if length % 2 else "v0"
        expect_shared(EQUIV, *((net, short) if place == 0 else (short, net)))
    for length in (64, 300):
        net = Network()
        net.arg(length)
        expect_shared(EQUIV, net, net)
        expect_shared(undecided(0, fails(ARG), fails(ARG)), net, bit("a"))


BY_HAND = (
    own_variables, fewer_variables, no_variables, unreached_variables, exactly_thirty, over_thirty,
    what_counts_for_nine, last_assignments, all_of_many, deep_and_equal, deep_and_unequal, deep_and_other_gates,
    long_chains)
