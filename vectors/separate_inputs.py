"""Cases of the separation that are about variables: n and the marks, variables that are not below the root, 30 of them,
and nodes that are reached along very many paths (document 01, "Comparison and separation").
"""
import itertools

import model
from compare_inputs import column, columns
from compare_values import table_tree
from comparisons import bit, fails, value
from lister import KIND, of
from networks import ARG, DONT_CARE, REGISTER, Network
from separations import SEPARATE, crossing, expect, expect_shared, expect_ways, record, scanned
from trees import joined, joined_right, listed, lut, minterm, variables

ZERO, ONE = value(1, 0), value(1, 1)
MOST = model.MOST_INPUTS
ALL_MARKED = 2 ** MOST - 1


def lowest_mark(marks):
    return marks & -marks


# ---- n and the marks ("bit v drives variable v, for 2^n assignments")


def each_variable(rng):
    """A variable alone, at each place there is, with that mark, all others, all and none."""
    for number in range(MOST):
        mark = 2 ** number
        for n in sorted({number + 1, min(number + 3, MOST), MOST}):
            everything = 2 ** n - 1
            expect(crossing(mark, ONE, ZERO), f"v{number}", n, mark)
            expect(crossing(mark, ONE, ZERO), f"v{number}", n, everything)
            expect(SEPARATE, f"v{number}", n, everything - mark)
            expect(SEPARATE, f"v{number}", n, 0)
        if number % 4 == 0:
            expect_ways(crossing(mark, ZERO, ONE), ("Not", f"v{number}"), MOST, mark, rng, 1)


def more_variables_than_listed(rng):
    """The same tree with n from its least on, and marks that no variable of the list has: nothing changes."""
    trees = [(("And", "v0", "v1"), "0001"), (("Mux", "v1", "dc", "v0"), "01dd"), (("Xor", "v0", "v1"), "0110"),
             (table_tree("0r10"), "0r10"), (lut(7, "v1", "v0"), "1110")]
    for tree, states in trees:
        for n in (2, 3, 4, 6, 9, 12, 13, 20, 29, 30):
            for marks in range(4):
                absent = rng.randrange(2 ** (n - 2)) << 2
                expect(scanned(states, marks), tree, n, marks + absent)


def no_variables():
    """Nothing drives a constant: separate whatever n and the marks are, n = 0 too."""
    for tree in ("0", "1", "dc", bit("r"), bit("a"), ("And", "1", "0"), lut(1), ("Bus", "1", "0"), ("Bus",)):
        for n in (0, 1, 2, 5, 12, 30):
            for marks in sorted({0, 2 ** n - 1, 2 ** n >> 1}):
                expect(SEPARATE, tree, n, marks)


def spread_variables(rng):
    """Tables over variables with gaps between them: the index has their own bits, not the first ones."""
    for numbers in ((0, 2), (1, 3), (2, 7), (5, 29), (0, 29), (28, 29), (11, 12, 13), (0, 10, 20), (3, 17, 29)):
        for _ in range(8):
            states = [rng.choice("0011dra") for _ in range(2 ** len(numbers))]
            chosen = rng.randrange(2 ** len(numbers))
            marks = spread(chosen, numbers)
            others = rng.randrange(2 ** MOST) & ~spread(2 ** len(numbers) - 1, numbers)
            answer = list(scanned(states, chosen))
            answer[3] = spread(answer[3], numbers)
            n = rng.choice([numbers[-1] + 1, MOST])
            expect(tuple(answer), spread_tree(states, numbers), n, marks)
            expect(tuple(answer), spread_tree(states, numbers), MOST, marks + others)


def spread(index, numbers):
    """The assignment that drives the j-th of these variables by bit j."""
    return sum((index >> place & 1) << number for place, number in enumerate(numbers))


def spread_tree(states, numbers):
    if len(states) == 1:
        return bit(states[0])
    half = len(states) // 2
    low, high = spread_tree(states[:half], numbers[:-1]), spread_tree(states[half:], numbers[:-1])
    return ("Mux", f"v{numbers[-1]}", high, low)


def strangers(rng):
    """Variables that the root does not reach: they move no bit, and marked they make no difference."""
    for n in (1, 2, 6, 12, 30):
        others = [word for number in range(n) for word in (KIND["Var"], number, 0)]
        for number in sorted({0, n // 2, n - 1}):
            mark = 2 ** number
            alone = of(*others, KIND["Var"], number, 0)
            expect(crossing(mark, ONE, ZERO), alone, n, mark)
            expect(crossing(mark, ONE, ZERO), alone, n, 2 ** n - 1)
            expect(SEPARATE, alone, n, 2 ** n - 1 - mark)
        expect(SEPARATE, of(*others, KIND["Const"], 1, 0), n, 2 ** n - 1)
        expect(SEPARATE, of(*others, KIND["DC"], 0, 0), n, rng.randrange(2 ** n))
    # below nodes that are not reached themselves, among them a crossing one
    net = Network()
    low = net.var(0)
    net.add("Not", net.add("And", low, net.var(1)))
    net.add("Xor", net.var(3), low)
    net.add("And", net.var(2), net.var(4))
    for marks, answer in ((4, crossing(20, ONE, ZERO)), (16, crossing(20, ONE, ZERO)), (11, SEPARATE),
                          (20, crossing(20, ONE, ZERO)), (31, crossing(20, ONE, ZERO)), (0, SEPARATE)):
        expect(answer, net, 5, marks)
    # one variable by several nodes is one variable
    several = of(3, 5, 0, 3, 5, 0, 3, 2, 0, 3, 2, 0, 6, 0, 2, 6, 2, 2, 7, 4, 2, pool=[0, 1, 2, 3, 4, 5])
    for marks, answer in ((4, crossing(4, ONE, ZERO)), (32, crossing(32, ONE, ZERO)), (36, crossing(4, ONE, ZERO)),
                          (27, SEPARATE)):
        expect(answer, several, 6, marks)


# ---- crossings at each place: And of all variables is 1 at the last assignment alone, a minterm at its own


def last_assignments():
    for n in list(range(1, 11)) + [12]:
        every = joined("And", variables(range(n)))
        some = sorted({1, 2 ** (n - 1), 2 ** n - 1, 2 ** n // 3 or 1}) if n < 12 else [2048]
        for marks in some:
            expect_shared(crossing(2 ** n - 1, ONE, ZERO), every, n, marks)
        expect(SEPARATE, joined("And", ["0"] + variables(range(n))) if n < 7 else "0", n, 2 ** n - 1)


def parities(rng):
    """Of a parity every marked variable is seen, the lowest first."""
    for n in list(range(1, 13)) + [16, 23, 30]:
        whole = joined("Xor", variables(range(n)))
        turned = ("Not", joined_right("Xor", variables(range(n))))
        # a low mark is always among them, so that the model soon comes to it
        drawn = {rng.randrange(2 ** n) | 1 << rng.randrange(min(n, 9)) for _ in range(4)}
        for marks in sorted({1, 2 ** n - 1, 2 ** min(n - 1, 9)} | drawn):
            expect_shared(crossing(lowest_mark(marks), ONE, ZERO), whole, n, marks)
            expect_shared(crossing(lowest_mark(marks), ZERO, ONE), turned, n, marks)
        if n <= 9:
            expect_shared(SEPARATE, whole, n, 0)


def minterms(rng):
    """Each crossing as `spikes` of separate_values.py says, over up to twelve variables."""
    for n in range(2, 13):
        for _ in range(8 if n < 9 else 3):
            index, marks = rng.randrange(2 ** n), rng.randrange(1, 2 ** n)
            tree = minterm(range(n), index)
            if index & marks:
                answer = crossing(index, ONE, ZERO)
            else:
                answer = crossing(index + lowest_mark(marks), ZERO, ONE)
            expect_shared(answer, tree, n, marks)
            failing = tuple(fails(DONT_CARE) if side == ONE else side for side in (answer[4:7], answer[7:]))
            expect_shared(crossing(answer[3], *failing), ("Mux", tree, "dc", tree), n, marks)


# ---- "n above 30": 30 itself


LOW = (1, 2, 3, 6, 21, 300, 1500)


def thirty_variables(rng):
    """All thirty below the root; a crossing at a low or a middling assignment."""
    names = variables(range(MOST))
    total, whole = joined("Xor", names), ("Bus", *names)
    for index in LOW:
        # over the eleven lowest, among the others' And, which is 0 there
        spike = ("Xor", minterm(range(11), index), joined("And", names))
        high = 2 ** (index.bit_length() - 1)
        for marks in sorted({high, high + 2 ** 29, 2 ** MOST - high, ALL_MARKED, index, index + 2 ** 20}):
            if index & marks:
                expect_shared(crossing(index, ONE, ZERO), spike, MOST, marks)
    for marks in (1, 2, 3, 4, 1024, ALL_MARKED, ALL_MARKED - 1, ALL_MARKED - 1023, 2 ** 29 + 1, 2 ** 29 + 512):
        lowest = lowest_mark(marks)
        expect_shared(crossing(lowest, ONE, ZERO), total, MOST, marks)
        # v0 is the first member, and so the highest bit
        expect_shared(crossing(lowest, value(MOST, 2 ** MOST // 2 // lowest), value(MOST, 0)), whole, MOST, marks)
        expect_shared(crossing(lowest, fails(REGISTER), ZERO),
                      ("Mux", total, ("Fdre", *names[:4]), joined("And", names)), MOST, marks)


def few_of_thirty(rng):
    """n = 30 and few variables below the root: separate, or a crossing among the highest assignments."""
    for numbers in ((29,), (28, 29), (0, 29), (14, 15, 29), (27, 28, 29), (*range(7), 29), tuple(range(22, 30))):
        names = variables(numbers)
        every = joined("And", names)
        last = sum(2 ** number for number in numbers)
        for marks in sorted({2 ** numbers[-1], 2 ** numbers[0], last, ALL_MARKED}):
            expect(crossing(last, ONE, ZERO), every, MOST, marks)
            expect(crossing(2 ** numbers[0] if marks & 2 ** numbers[0] else 2 ** numbers[-1], ONE, ZERO),
                   joined("Xor", names), MOST, marks)
        expect(SEPARATE, every, MOST, ALL_MARKED - last)
        expect(SEPARATE, every, MOST, 0)
        expect_ways(SEPARATE, ("And", every, ("Xor", "v29", "v29")), MOST, ALL_MARKED, rng, 1)
        expect_ways(SEPARATE, ("Fdre", *(names * 4)[:4]), MOST, ALL_MARKED, rng, 1)
    idle = joined("Xor", ["v3", "v29", "v17", "v29"])
    for marks, answer in ((2 ** 29, SEPARATE), (2 ** 29 + 2 ** 17, crossing(2 ** 17, ONE, ZERO)),
                          (8, crossing(8, ONE, ZERO)), (ALL_MARKED - 8 - 2 ** 17, SEPARATE)):
        expect_ways(answer, idle, MOST, marks, rng, 2)


def all_of_many():
    """2^14 and more assignments tried. The model would take minutes over them, and is not asked: And of all variables
    is 1 at the last assignment alone, and a parity that has a variable twice does not depend on it."""
    for n in (14, 16, 18):
        names = variables(range(n))
        for given, marks, answer in (
                (joined("And", names), 1, crossing(2 ** n - 1, ONE, ZERO)),
                (joined("And", names), 2 ** (n - 1), crossing(2 ** n - 1, ONE, ZERO)),
                (joined("Xor", names), 0, SEPARATE),
                (joined("Xor", [names[-1]] + names), 2 ** (n - 1), SEPARATE),
                (joined("Xor", [names[0]] + names), 1, SEPARATE),
                (("And", joined("Xor", names), ("And", "v3", ("Not", "v3"))), 2 ** n - 1, SEPARATE)):
            record(answer, listed(given), n, marks)
    # thirty below the root, and the crossing at the place of a middling mark
    names = variables(range(MOST))
    for number in (14, 17):
        mark = 2 ** number
        record(crossing(mark, ONE, ZERO), listed(joined("Xor", names)), MOST, mark)
        record(crossing(mark, ONE, ZERO), listed(joined("Xor", names)), MOST, ALL_MARKED - mark + 1)


# ---- deep sharing: 2^n paths ("Walks over shared nodes: one pass by number with a table")


def deep_columns():
    """And and Nor over the node below twice: And gives what is below it, Nor its complement each time, Xor 0."""
    for length in (2, 10, 40, 101):
        for bottom, crossed in (("v0", True), (("Xor", "v0", "v0"), False), ("v1", False), ("dc", False)):
            for name in ("And", "Nor", "Xor") if length < 100 else ("Nor",):
                turned = name == "Nor" and length % 2
                answer = crossing(1, *((ZERO, ONE) if turned else (ONE, ZERO)))
                expect_shared(answer if crossed and name != "Xor" else SEPARATE, column(name, length, bottom), 2, 1)
        expect_shared(crossing(3, ONE, ZERO), columns("And", length, "v0", "v1"), 2, 2)
        expect_shared(crossing(1, fails(DONT_CARE), ZERO), columns("And", length, "v0", "dc"), 2, 1)
        expect_shared(SEPARATE, columns("And", length, "0", "v1"), 2, 3)
    # the Arg far below the Cycles, reached along every path
    net = Network()
    top = net.add("And", net.add("Arg", net.program(1)), net.var(1))
    for _ in range(60):
        top = net.add("And", top, top)
    for _ in range(2):
        top = net.add("Cycle", top)
    expect_shared(crossing(2, fails(ARG), ZERO), net, 2, 2)
    expect_shared(SEPARATE, net, 2, 1)


def long_chains():
    """As many nodes as a list may have, one below the other."""
    for length, marks in ((model.MOST_NODES - 1, 1), (1000, 1), (1000, 2)):
        net = Network()
        top = net.var(0)
        for _ in range(length):
            top = net.add("Not", top)
        sides = (ZERO, ONE) if length % 2 else (ONE, ZERO)
        expect_shared(crossing(1, *sides) if marks == 1 else SEPARATE, net, 2, marks)


def two_minterms(rng):
    """n and marks of each size, over a tree that is odd at two places."""
    for n, _ in itertools.product(range(1, 9), range(6)):
        one, two = rng.randrange(2 ** n), rng.randrange(2 ** n)
        marks = rng.randrange(2 ** n)
        states = ["0"] * 2 ** n
        states[one], states[two] = "1", "r"
        tree = ("Mux", minterm(range(n), two), bit("r"), minterm(range(n), one))
        expect_shared(scanned(states, marks), tree, n, marks)


BY_HAND = (
    each_variable, more_variables_than_listed, no_variables, spread_variables, strangers, last_assignments, parities,
    minterms, thirty_variables, few_of_thirty, all_of_many, deep_columns, long_chains, two_minterms)
