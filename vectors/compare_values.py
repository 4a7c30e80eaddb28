"""Cases of the comparison that are about answers: the examples, values under every assignment, trees that are equal or
nearly so, failures, widths (document 01, "Comparison and separation", "Answers of a node", "Panel bench examples").
"""
import itertools

from comparisons import EQUIV, FIRST_STATES, bit, differ, expect, expect_ways, fails, scanned, told, undecided, value
from lister import KIND, of
from model import HALF
from networks import ARG, DONT_CARE, REGISTER, STATES, UNDRIVEN
from trees import WAYS, bus, joined, joined_right, listed, listed_otherwise, lut, minterm, variables

TABLE_PAIRS = 140

# ---- document 01, "Panel bench examples"


def starred_examples(rng):
    zero, one = value(1, 0), value(1, 1)
    chosen, both = ("Mux", "v0", "dc", "1"), ("And", "v0", "v1")
    absorbed = ("And", "0", "v5")
    # "v0 against DC: Inconclusive at 0. Mux(v0, DC, true) against true: Inconclusive at 1; against false: NotEquiv at
    # 0."
    expect_ways(undecided(0, zero, fails(DONT_CARE)), "v0", "dc", rng)
    expect_ways(undecided(1, fails(DONT_CARE), one), chosen, "1", rng, 6)
    expect_ways(differ(0, one, zero), chosen, "0", rng, 6)
    # "And(v0, v1) against v0: NotEquiv at 1. false against And(false, v5): Equiv"
    expect_ways(differ(1, zero, one), both, "v0", rng, 6)
    expect_ways(EQUIV, "0", absorbed, rng, 6)
    # the other way round, where the second list's variables may be undriven
    expect_ways(undecided(0, fails(DONT_CARE), fails(UNDRIVEN)), "dc", "v0", rng)
    expect_ways(undecided(0, one, fails(UNDRIVEN)), "1", chosen, rng)
    expect_ways(undecided(0, zero, fails(UNDRIVEN)), "0", chosen, rng)
    expect_ways(undecided(1, one, fails(UNDRIVEN)), "v0", both, rng)
    expect_ways(EQUIV, absorbed, "0", rng)
    # docs/DECISIONS.md: v0 against a bus of it is Equiv, against a bus of false and it NotEquiv; a Cycle over DC
    expect_ways(EQUIV, "v0", ("Bus", "v0"), rng)
    expect_ways(differ(0, zero, value(2, 0)), "v0", ("Bus", "0", "v0"), rng)
    expect_ways(undecided(0, fails(DONT_CARE), fails(DONT_CARE)), ("Cycle", "dc"), "dc", rng)
    expect_ways(undecided(0, fails(DONT_CARE), fails(DONT_CARE)), ("Not", "dc"), "dc", rng)


# ---- values under every assignment ("bit j of assignment i drives the j-th smallest variable below the first root")


def digits_of(program, count, operands):
    """The bit of a Lut over variables 0 to count - 1 under each assignment; "the first operand is the most significant
    bit of the row number"."""
    found = ""
    for index in range(2 ** count):
        row = "".join(str(index >> number & 1) for number in operands)
        found += format(program, "064b")[63 - int(row, 2)]
    return found


def program_of(digits, order):
    """The program of a Lut over variables in this order that has these bits under 0, 1, .."""
    program = 0
    for index, digit in enumerate(digits):
        row = "".join(str(index >> number & 1) for number in order)
        program += int(digit) << int(row, 2)
    return program


def two_operand_luts():
    """All 16 programs against all 16, with the operands in one order and in the other."""
    for first, second in itertools.product(range(16), repeat=2):
        for turned in ((0, 1), (1, 0)):
            answer = scanned(digits_of(first, 2, (0, 1)), digits_of(second, 2, turned))
            expect(answer, lut(first, "v0", "v1"), lut(second, *variables(turned)))


def wide_luts(rng):
    """A program against one with another digit: at each of the 64 rows of six operands, and operands in any order."""
    for row in range(64):
        program = rng.randrange(2 ** 64)
        order = rng.sample(range(6), 6)
        answer = scanned(digits_of(program, 6, order), digits_of(program ^ 2 ** row, 6, order))
        assert answer[2] == 1
        expect(answer, lut(program, *variables(order)), lut(program ^ 2 ** row, *variables(order)))
    for count in (3, 4, 5, 6):
        for _ in range(20):
            program = rng.randrange(2 ** 2 ** count)
            orders = [rng.sample(range(count), count) for _ in range(2)]
            # the same table over operands in another order, and the same but one digit
            permuted = program_of(digits_of(program, count, orders[0]), orders[1])
            whole = lut(program, *variables(orders[0]))
            expect(EQUIV, whole, lut(permuted, *variables(orders[1])))
            other = permuted ^ 2 ** rng.randrange(2 ** count)
            answer = scanned(digits_of(program, count, orders[0]), digits_of(other, count, orders[1]))
            expect(answer, whole, lut(other, *variables(orders[1])))


# over v0 and v1, at 0, 1, 2, 3
GATE_DIGITS = {"And": "0001", "Nor": "1000", "Xor": "0110"}
# document 01, "Mux, And, Xor, Nor, Not become Luts of programs 202, 8, 6, 1, 1"
AS_LUTS = {"And": 8, "Nor": 1, "Xor": 6}


def gates_and_luts(rng):
    """A gate against each Lut and each gate: only the one of its own table is Equiv."""
    for name, digits in GATE_DIGITS.items():
        gate = (name, "v0", "v1")
        for program in range(16):
            expect(scanned(digits, digits_of(program, 2, (0, 1))), gate, lut(program, "v0", "v1"))
            expect(scanned(digits_of(program, 2, (0, 1)), digits), lut(program, "v0", "v1"), gate)
        for other, others in GATE_DIGITS.items():
            expect_ways(scanned(digits, others), gate, (other, "v0", "v1"), rng, 2)
            expect_ways(scanned(digits, others), gate, (other, "v1", "v0"), rng, 2)
    mux, table = ("Mux", "v0", "v1", "v2"), digits_of(202, 3, (0, 1, 2))
    expect_ways(EQUIV, mux, lut(202, "v0", "v1", "v2"), rng)
    for row in range(8):
        expect(scanned(table, digits_of(202 ^ 2 ** row, 3, (0, 1, 2))), mux, lut(202 ^ 2 ** row, "v0", "v1", "v2"))
    for program in range(4):
        expect(scanned("10", digits_of(program, 1, (0,))), ("Not", "v0"), lut(program, "v0"))
    for program, constant in itertools.product((0, 1), "01"):
        expect(scanned(str(program), constant), lut(program), constant)


def identities(rng):
    """The same values from other trees: no assignment decides."""
    both, either = ("And", "v0", "v1"), ("Not", ("Nor", "v0", "v1"))
    pairs = [
        (("Not", ("Not", "v0")), "v0"), (("Xor", "v0", "v0"), "0"), (("And", "v0", ("Not", "v0")), "0"),
        (("Not", both), lut(7, "v0", "v1")), (either, lut(14, "v0", "v1")),
        (both, ("Nor", ("Not", "v0"), ("Not", "v1"))),
        (("Xor", "v0", "v1"), ("And", either, ("Not", both))), (("Mux", "v0", "v1", "v1"), "v1"),
        (("Mux", "v0", "v1", "0"), both), (("Mux", "v0", "1", "v1"), either), (("Mux", "v0", "0", "1"), ("Not", "v0")),
        (("Cycle", "v0"), "v0"), (("Cycle", ("Cycle", both)), ("Cycle", both)), (lut(2, "v0"), "v0"),
        (joined("Xor", variables(range(5))), joined_right("Xor", variables(range(5)))),
        (joined("And", variables(range(8))), joined_right("And", variables(range(8)))),
        (("And", "v2", ("Not", ("Nor", "v0", "v1"))), ("Mux", "v2", either, "0")),
        (("Mux", "1", "v0", "dc"), "v0"), (("Mux", "0", "dc", "v0"), "v0"), (("And", "v0", ("Nor", "dc", "1")), "0"),
    ]
    for first, second in pairs:
        expect_ways(EQUIV, first, second, rng, 4)
        if names_in(first) <= names_in(second):
            expect_ways(EQUIV, second, first, rng, 4)


def names_in(tree):
    """The variables of a tree."""
    if isinstance(tree, str):
        return {tree} if tree[0] == "v" else set()
    return set().union(*(names_in(child) for child in tree[1:]))


def minterms(rng):
    """One bit at every index of a few variables, against false; and turned over in a sum against the sum. "bit j of
    assignment i drives the j-th smallest variable": of 7, 200 and 3, bit 0 drives 3, bit 1 drives 7, bit 2 drives
    200."""
    for numbers in ((7, 200, 3), (255, 0, 128), (1, 0), (9,), (255,), (5, 4, 3, 2), (250, 251, 17, 253, 254), ()):
        for index in range(2 ** len(numbers)):
            spike = minterm(numbers, index)
            expect(differ(index, value(1, 1), value(1, 0)), listed_otherwise(spike, rng), "0")
            if numbers:
                total = joined("Xor", variables(numbers))
                ones = index.bit_count() % 2
                answer = differ(index, value(1, ones), value(1, 1 - ones))
                expect(answer, total, listed_otherwise(("Xor", spike, total), rng))
                letter = rng.choice("dra")
                expect(undecided(index, value(1, ones), told(letter)), total, ("Mux", spike, bit(letter), total))


def order_of_the_inputs(rng):
    """A bus of three variables in any order in the tree, against zeros: the number at the index that decides tells
    which variable the lowest bit drives."""
    for numbers in ((7, 200, 3), (0, 1, 2), (254, 255, 1), (100, 10, 1)):
        for order in itertools.permutations(numbers):
            smallest = order.index(min(numbers))
            expect(differ(1, value(3, 4 >> smallest), value(3, 0)), ("Bus", *variables(order)), bus("000"))
            # without it, the same index drives the next
            rest = [number for number in order if number != min(numbers)]
            expect(differ(1, value(2, 2 >> rest.index(min(rest))), value(2, 0)), ("Bus", *variables(rest)), bus("00"))
    # And(v3, v7, v200) against And(v3, v7): at 3, where v200 is 0; against And(v7, v200): at 6; And(v3, v200): at 5
    whole = joined("And", variables((3, 7, 200)))
    for rest, index in (((3, 7), 3), ((7, 200), 6), ((3, 200), 5)):
        expect_ways(differ(index, value(1, 0), value(1, 1)), whole, joined("And", variables(rest)), rng)


# ---- equal trees ("Equal trees: Equiv, DC or not, however many variables")


def some_trees():
    both = ("And", "v0", "v1")
    register = ("Fdre", both, "v2", ("Bus", both, both), "dc")
    return [
        "0", "1", "dc", "v0", "v255", ("Bus",), ("Bus", "dc"), both, ("Xor", both, both), ("And", both, ("Not", both)),
        ("And", ("Xor", "v0", "dc"), ("Xor", "v0", "dc")), lut(2 ** 64 - 2, *variables((0, 1, 2, 0, 1, 9))), lut(1),
        register, ("Fdse", register, register, "v0", register), ("Fdce", *["1"] * 4), ("Fdpe", "v1", "dc", "v1", "0"),
        ("Cycle", ("Arg", "p0")), ("Cycle", ("Cycle", ("And", ("Arg", "p0"), ("Arg", "p1")))),
        ("Cycle", ("Nor", ("Arg", "p0"), lut(0, ("Arg", "p0")))),
        ("Mux", both, ("Bus", both, "v0", "dc"), ("Bus", "v0", both, "v0")), ("Not", ("Bus", *["v0", "v1"] * 32)),
        lut(202, both, ("Not", both), ("Xor", both, "v2")), joined("Xor", variables(range(12))),
        ("Bus", *[lut(8, "v0", "v1"), both] * 3), joined("And", [("Nor", "v0", "v0")] * 6),
    ]


def equal_trees(rng):
    """Listed otherwise: shared or not, in another order, among nodes that are not reached, the pool laid otherwise."""
    for tree in some_trees():
        plain = listed(tree)
        for way in WAYS.values():
            expect(EQUIV, plain, way(tree, rng))
            expect(EQUIV, way(tree, rng), plain)
        for _ in range(3):
            expect(EQUIV, listed_otherwise(tree, rng), listed_otherwise(tree, rng))


def same_words_other_trees():
    """Lists that are word for word the same in their nodes, or in their pools, and stand for other trees."""
    gate = [3, 0, 0, 3, 1, 0, KIND["And"], 0, 2]
    expect(differ(1, value(1, 0), value(1, 1)), of(*gate, pool=[0, 1]), of(*gate, pool=[0, 0]))
    expect(undecided(1, value(1, 1), fails(UNDRIVEN)), of(*gate, pool=[0, 0]), of(*gate, pool=[0, 1]))
    expect(EQUIV, of(*gate, pool=[0, 1]), of(*gate, pool=[1, 0]))
    expect(EQUIV, of(*gate, pool=[0, 1]), of(*gate, pool=[0, 1]))
    other = [3, 1, 0, 3, 0, 0, KIND["And"], 0, 2]
    # the same pool over variables that changed places: equal where the pool has changed with them
    expect(EQUIV, of(*gate, pool=[0, 1]), of(*other, pool=[1, 0]))
    expect(EQUIV, of(*gate, pool=[0, 1]), of(*other, pool=[0, 1]))
    # a longer list whose first nodes are the other, and one whose last are
    expect(differ(0, value(1, 0), value(1, 1)), of(*gate, pool=[0, 1]), of(*gate, 8, 2, 1, pool=[0, 1, 2]))
    expect(EQUIV, of(*gate, pool=[0, 1]), of(0, 1, 0, 3, 0, 0, 3, 1, 0, 6, 0, 2, pool=[1, 2]))
    # leaves of the same fields: Const 0, DC and Var 0
    for (kind, first), (other, second) in itertools.product((("Const", "0"), ("DC", "d")), repeat=2):
        answer = EQUIV if kind == other else undecided(0, told(first), told(second))
        expect(answer, of(KIND[kind], 0, 0), of(KIND[other], 0, 0))
    # Var 1 and Const 1
    expect(differ(0, value(1, 0), value(1, 1)), of(3, 1, 0), of(0, 1, 0))
    expect(undecided(0, value(1, 1), fails(UNDRIVEN)), of(0, 1, 0), of(3, 1, 0))


# ---- near-equal trees: unequal in one place, so that the assignments decide


def other_kind(rng):
    names = ("Fdre", "Fdse", "Fdpe", "Fdce")
    for first, second in itertools.product(names, repeat=2):
        answer = EQUIV if first == second else undecided(0, fails(REGISTER), fails(REGISTER))
        expect_ways(answer, (first, "v0", "v1", "0", "dc"), (second, "v0", "v1", "0", "dc"), rng, 1)
        # below an And that absorbs it the value is the same
        expect(EQUIV, ("And", "0", (first, *["v0"] * 4)), ("And", "0", (second, *["v0"] * 4)))
    expect_ways(differ(0, value(1, 1), value(1, 0)), ("Not", "v0"), ("Cycle", "v0"), rng)
    expect_ways(differ(0, value(1, 0), value(1, 1)), ("Cycle", "v0"), ("Not", "v0"), rng)
    expect_ways(undecided(0, fails(DONT_CARE), fails(DONT_CARE)), ("Not", "dc"), ("Cycle", "dc"), rng)
    # a Cycle over an Arg, and a Not between them
    expect_ways(undecided(0, fails(ARG), fails(ARG)), bit("a"), ("Cycle", ("Not", ("Arg", "p0"))), rng)
    deep, other = (("Not", ("Nor", ("Not", (name, "v0", "v1")), "v2")) for name in ("And", "Xor"))
    # Nor(Not(And), v2) complemented is (not (v0 and v1)) or v2: 1 1 1 0 for v2 = 0; with Xor 1 0 0 1
    expect_ways(scanned("11101111", "10011111"), deep, other, rng)


def other_datum(rng):
    for first, second in itertools.product("01", repeat=2):
        expect(scanned(first, second), first, second)
        # v1 below the And: at 2 and 3 it is 1
        expect(scanned("00" + first * 2, "00" + second * 2), ("And", "v1", ("Xor", ("Xor", "v0", "v0"), first)),
               ("And", "v1", ("Xor", ("Xor", "v0", "v0"), second)))
    for first, second in itertools.permutations((0, 1, 2, 100, 255), 2):
        expect(undecided(0, value(1, 0), fails(UNDRIVEN)), f"v{first}", f"v{second}")
    # Arg indices under two Cycles, Programs that differ in either half
    for first, second in itertools.product((0, 1), repeat=2):
        trees = [("Cycle", ("Cycle", ("Arg", f"p{index}"))) for index in (first, second)]
        expect_ways(EQUIV if first == second else undecided(0, fails(ARG), fails(ARG)), *trees, rng, 2)
    for row in (0, 31, 32, 63):
        # operands v5 to v0: the row number is the index
        operands = variables((5, 4, 3, 2, 1, 0))
        expect_ways(differ(row, value(1, 0), value(1, 1)), lut(0, *operands), lut(2 ** row, *operands), rng, 2)
        expect_ways(differ(row, value(1, 1), value(1, 0)), lut(2 ** row, *operands), lut(0, *operands), rng, 2)
        expect_ways(EQUIV, ("And", "0", lut(0, *operands)), ("And", "0", lut(2 ** row, *operands)), rng, 1)
    halves = lut(HALF + 1, *variables((5, 4, 3, 2, 1, 0)))
    expect(differ(32, value(1, 1), value(1, 0)), halves, lut(1, *variables((5, 4, 3, 2, 1, 0))))
    expect(differ(0, value(1, 1), value(1, 0)), halves, lut(HALF, *variables((5, 4, 3, 2, 1, 0))))


def other_child(rng):
    both = ("And", "v0", "v1")
    expect_ways(differ(1, value(1, 0), value(1, 1)), both, ("And", "v0", "v0"), rng)
    expect_ways(undecided(1, value(1, 1), fails(UNDRIVEN)), ("And", "v0", "v0"), both, rng)
    # one node twice against two nodes of which one differs, deep down
    twice = ("Xor", ("Not", both), ("Not", both))
    expect_ways(differ(1, value(1, 0), value(1, 1)), twice, ("Xor", ("Not", both), ("Not", ("And", "v0", "v0"))), rng)
    expect_ways(differ(3, value(1, 0), value(1, 1)), twice, ("Xor", ("Not", both), ("Not", ("And", both, "0"))), rng)
    expect_ways(EQUIV, twice, ("Xor", ("Not", both), ("Not", ("And", "v1", "v0"))), rng)
    # each operand of a Lut, a register, a Mux and a Bus in turn; all are equal while v0, v1, v2 are
    operands = variables((0, 1, 2))
    for place in range(3):
        changed = list(operands)
        changed[place] = ("Not", operands[place])
        # an odd number of ones: any operand turns it over
        expect(differ(0, value(1, 0), value(1, 1)), lut(150, *operands), lut(150, *changed))
        expect(differ(0, value(3, 0), value(3, 4 >> place)), ("Bus", *operands), ("Bus", *changed))
        expect(undecided(0, fails(REGISTER), fails(REGISTER)), ("Fdse", *operands, "0"), ("Fdse", *changed, "0"))
    # Mux(v0, v1, v2) is v2, v1, v2, v1, ..: 0 0 0 1 1 0 1 1
    mux = ("Mux", *operands)
    expect_ways(scanned("00011011", "00100111"), mux, ("Mux", ("Not", "v0"), "v1", "v2"), rng)
    expect_ways(scanned("00011011", "01001110"), mux, ("Mux", "v0", ("Not", "v1"), "v2"), rng)
    expect_ways(scanned("00011011", "10110001"), mux, ("Mux", "v0", "v1", ("Not", "v2")), rng)


def child_order(rng):
    for name in GATE_DIGITS:
        expect_ways(EQUIV, (name, "v0", "v1"), (name, "v1", "v0"), rng)
        # of two failures, the first
        answer = undecided(0, fails(DONT_CARE), fails(REGISTER))
        expect_ways(answer, (name, "dc", bit("r")), (name, bit("r"), "dc"), rng)
    expect_ways(differ(2, value(1, 0), value(1, 1)), ("Mux", "v0", "v1", "v2"), ("Mux", "v0", "v2", "v1"), rng)
    expect_ways(differ(1, value(2, 2), value(2, 1)), ("Bus", "v0", "v1"), ("Bus", "v1", "v0"), rng)
    expect_ways(differ(1, value(1, 1), value(1, 0)), lut(12, "v0", "v1"), lut(12, "v1", "v0"), rng)
    expect_ways(EQUIV, lut(8, "v0", "v1"), lut(8, "v1", "v0"), rng)
    expect_ways(undecided(0, fails(REGISTER), fails(REGISTER)), ("Fdre", "v0", "v1", "0", "1"),
                ("Fdre", "v1", "v0", "0", "1"), rng)
    # of a bus the last failing member, of a Lut the first failing operand
    expect_ways(undecided(0, fails(REGISTER), fails(DONT_CARE)), ("Bus", "dc", bit("r")), ("Bus", bit("r"), "dc"), rng)
    expect_ways(undecided(0, fails(DONT_CARE), fails(REGISTER)), lut(6, "dc", bit("r")), lut(6, bit("r"), "dc"), rng)


def one_more_level(rng):
    for tree, digits in (("v0", "01"), (("And", "v0", "v1"), "0001"), (lut(9, "v0", "v1"), "1001")):
        turned = "".join("10"[int(digit)] for digit in digits)
        expect_ways(EQUIV, ("Cycle", tree), tree, rng)
        expect_ways(EQUIV, tree, lut(2, tree), rng)
        expect_ways(EQUIV, tree, ("Bus", tree), rng)
        expect_ways(scanned(digits, turned), tree, ("Not", tree), rng)
        top = tree
        for depth in range(1, 5):
            top = ("Not", top)
            expect(scanned(turned if depth % 2 else digits, digits), top, tree)
            expect(EQUIV, top, ("Not", ("Not", top)))
    for letter in "dra":
        expect_ways(undecided(0, told(letter), told(letter)), bit(letter), ("Cycle", bit(letter)), rng)
        expect_ways(undecided(0, told(letter), told(letter)), ("Not", bit(letter)), bit(letter), rng)


# ---- failures


def one_variable_tables(rng):
    """Every pair of bits or failures under 0 and 1 on the one side, every pair on the other, in trees that are unequal:
    the first assignment under which a side fails or the two differ decides, whatever stands behind it."""
    for firsts in itertools.product(FIRST_STATES, repeat=2):
        tree = ("Mux", "v0", bit(firsts[1]), bit(firsts[0]))
        for seconds in itertools.product(STATES, repeat=2):
            other = ("Mux", ("Not", "v0"), bit(seconds[0]), bit(seconds[1]))
            expect(scanned(firsts, seconds), tree, other)
        # and in trees that are equal
        expect(EQUIV, tree, listed_otherwise(tree, rng))


def table_tree(states, first=0):
    """A tree over variables from `first` on that has these bits or failures under 0, 1, .."""
    if len(states) == 1:
        return bit(states[0])
    half = len(states) // 2
    # the highest variable chooses between the halves
    number = first + half.bit_length() - 1
    return ("Mux", f"v{number}", table_tree(states[half:], first), table_tree(states[:half], first))


def first_failures():
    """Written out: a failure before a difference, a difference before a failure, and both at one assignment."""
    for firsts, seconds in (("0000", "0d10"), ("0d10", "0000"), ("01r1", "0101"), ("0101", "01a0"), ("0011", "00u0")):
        index = next(at for at in range(4) if firsts[at] not in "01" or seconds[at] not in "01")
        answer = undecided(index, told(firsts[index]), told(seconds[index]))
        expect(answer, table_tree(firsts), ("Cycle", table_tree(seconds)))
    expect(differ(1, value(1, 0), value(1, 1)), table_tree("00dd"), table_tree("01dd"))
    expect(differ(2, value(1, 1), value(1, 0)), table_tree("011r"), table_tree("010u"))
    expect(differ(0, value(1, 1), value(1, 0)), table_tree("1aaa"), table_tree("0uuu"))
    expect(undecided(3, fails(ARG), value(1, 1)), table_tree("011a"), table_tree("0111"))
    # "Equal trees: Equiv, DC or not": the same failures in trees that are unequal decide
    for letter in "dra":
        states = "01" + letter + "1"
        expect(EQUIV, table_tree(states), table_tree(states))
        expect(undecided(2, told(letter), told(letter)), table_tree(states), ("Cycle", table_tree(states)))
        expect(undecided(2, told(letter), told(letter)), ("Cycle", table_tree(states)), table_tree(states))
    # a failure under the first assignment on each side, of each kind
    for first, second in itertools.product(FIRST_STATES, STATES):
        expect(scanned(first, second), ("Cycle", bit(first)), bit(second))


def drawn_tables(rng):
    """Bits and failures of two to four variables; the second's from the first's, some places changed."""
    for _ in range(TABLE_PAIRS):
        count = rng.choice([2, 2, 3, 3, 4])
        plain = [rng.choice("01") for _ in range(2 ** count)]
        firsts, seconds = list(plain), list(plain)
        for _ in range(rng.choice([0, 1, 1, 2, 3])):
            firsts[rng.randrange(len(firsts))] = rng.choice(FIRST_STATES)
            seconds[rng.randrange(len(seconds))] = rng.choice(STATES)
        start = rng.choice([0, 0, 3, 200])
        tree = table_tree(firsts, start)
        expect(scanned(firsts, seconds), tree, ("Cycle", listed_mux(seconds, start, rng)))


def listed_mux(states, first, rng):
    """Such a tree, with some of its Muxes turned."""
    if len(states) == 1:
        return bit(states[0])
    half = len(states) // 2
    variable = f"v{first + half.bit_length() - 1}"
    low, high = listed_mux(states[:half], first, rng), listed_mux(states[half:], first, rng)
    return ("Mux", variable, high, low) if rng.random() < 0.5 else ("Mux", ("Not", variable), low, high)


# ---- widths ("Widths count: a one-member bus equals a bit")


def one_member(rng):
    zero, one = value(1, 0), value(1, 1)
    for first, second in itertools.product(("v0", ("Bus", "v0"), ("Cycle", ("Bus", "v0"))), repeat=2):
        expect_ways(EQUIV, first, second, rng, 1)
    for first, second in (("v0", ("Bus", ("Not", "v0"))), (("Bus", "v0"), ("Not", "v0")),
                          (("Bus", "v0"), ("Bus", ("Not", "v0"))), (("Bus", "v0"), ("Not", ("Bus", "v0")))):
        expect_ways(differ(0, zero, one), first, second, rng)
        expect_ways(differ(0, one, zero), second, first, rng)
    expect_ways(differ(1, zero, one), ("Bus", ("And", "v0", "v1")), "v0", rng)
    for first, second in itertools.product("01", repeat=2):
        expect(scanned(first, second), first, ("Bus", second))
        expect(scanned(first, second), ("Bus", first), second)
        expect(scanned(first, second), ("Bus", first), ("Bus", second))
    for letter in "dra":
        expect(undecided(0, told(letter), told(letter)), bit(letter), ("Bus", bit(letter)))
        expect(EQUIV, ("Bus", bit(letter)), ("Bus", bit(letter)))


def no_member(rng):
    empty = ("Bus",)
    others = [("Not", empty), ("And", empty, empty), ("Nor", empty, empty), ("Xor", empty, empty), ("Cycle", empty),
              ("Mux", "1", empty, empty), ("Not", ("Not", empty)), ("And", empty, ("Mux", "dc", empty, empty)),
              ("Nor", ("Mux", "v9", empty, empty), empty)]
    for other in others:
        # And and Nor: "all zeros", and "all ones", are what a bus of none has
        expect_ways(EQUIV, empty, other, rng, 2)
        expect_ways(EQUIV, other, empty, rng, 2)
        expect(EQUIV, other, other)
    expect(EQUIV, ("Mux", "v0", empty, ("Not", empty)), empty)
    expect(undecided(0, value(0, 0), fails(UNDRIVEN)), empty, ("Mux", "v0", empty, empty))
    expect(undecided(0, value(0, 0), fails(DONT_CARE)), empty, ("Xor", empty, ("Mux", "dc", empty, empty)))
    for constant in "01":
        expect(differ(0, value(0, 0), value(1, int(constant))), empty, constant)
        expect(differ(0, value(1, int(constant)), value(0, 0)), constant, empty)
        expect(differ(0, value(1, int(constant)), value(0, 0)), ("Bus", constant), ("Not", empty))


def other_widths():
    """NotEquiv with both answers, also where both values are 0."""
    widths = (0, 1, 2, 3, 32, 33, 63, 64)
    for first, second in itertools.product(widths, repeat=2):
        for digit, of_width in (("0", lambda width: 0), ("1", lambda width: 2 ** width - 1)):
            answer = differ(0, value(first, of_width(first)), value(second, of_width(second)))
            expect(EQUIV if first == second else answer, bus(digit * first), bus(digit * second))
            if first == second:
                expect(EQUIV, bus(digit * first), ("Not", ("Not", bus(digit * first))))
    # at a later assignment the widths would differ too: it is the lowest that is told
    expect(differ(0, value(2, 0), value(3, 0)), ("Bus", "v0", "v1"), ("Bus", "0", "v0", "v1"))
    expect(undecided(0, value(2, 0), fails(DONT_CARE)), ("Bus", "v0", "v1"), ("Bus", "dc", "v0", "v1"))


def widest(rng):
    """Two buses of 64 that differ in one member: its place is told by the values ("its last member is bit 0")."""
    for place in range(64):
        digits = [rng.choice("01") for _ in range(64)]
        turned = list(digits)
        turned[place] = "10"[int(digits[place])]
        answer = differ(0, value(64, int("".join(digits), 2)), value(64, int("".join(turned), 2)))
        expect(answer, bus(digits), bus(turned))
    for place in (0, 1, 31, 32, 62, 63):
        members = ["v0"] * 64
        members[place] = "1"
        whole = ("Bus", *["v0"] * 64)
        expect(differ(0, value(64, 0), value(64, 2 ** (63 - place))), whole, ("Bus", *members))
        members[place] = ("And", "v0", "v1")
        expect(undecided(1, value(64, 2 ** 64 - 1), fails(UNDRIVEN)), whole, ("Bus", *members))
        expect(differ(1, value(64, 2 ** 64 - 1 - 2 ** (63 - place)), value(64, 2 ** 64 - 1)), ("Bus", *members), whole)
        members[place] = ("Not", ("Not", "v0"))
        expect(EQUIV, whole, ("Bus", *members))


def bus_gates(rng):
    """A gate of buses against a bus of gates; failures are not the same, since a bus fails as a whole."""
    names = variables(range(4))
    for name in GATE_DIGITS:
        whole = (name, ("Bus", *names[:2]), ("Bus", *names[2:]))
        parts = ("Bus", (name, "v0", "v2"), (name, "v1", "v3"))
        expect_ways(EQUIV, whole, parts, rng)
        expect_ways(EQUIV, parts, whole, rng)
        top = 3 if name == "Nor" else 0
        expect_ways(differ(0, value(2, top), value(2, 3 - top)), whole, ("Not", whole), rng)
    expect_ways(EQUIV, ("Not", ("Bus", "v0", "v1")), ("Bus", ("Not", "v0"), ("Not", "v1")), rng)
    expect_ways(EQUIV, ("Mux", "v0", ("Bus", "v1", "v2"), ("Bus", "v2", "v1")),
                ("Bus", ("Mux", "v0", "v1", "v2"), ("Mux", "v0", "v2", "v1")), rng)
    # And(Bus(DC, 1), Bus(0, 1)) fails; member by member the 0 absorbs
    whole, parts = ("And", ("Bus", "dc", "1"), bus("01")), ("Bus", ("And", "dc", "0"), ("And", "1", "1"))
    expect_ways(undecided(0, fails(DONT_CARE), value(2, 1)), whole, parts, rng)
    expect_ways(undecided(0, value(2, 1), fails(DONT_CARE)), parts, whole, rng)
    expect_ways(EQUIV, ("And", ("Bus", "0", "dc"), bus("00")), ("Bus", ("And", "0", "0"), ("And", "dc", "0")), rng)


BY_HAND = (
    starred_examples, two_operand_luts, wide_luts, gates_and_luts, identities, minterms, order_of_the_inputs,
    equal_trees, same_words_other_trees, other_kind, other_datum, other_child, child_order, one_more_level,
    one_variable_tables, first_failures, one_member, no_member, other_widths, widest, bus_gates)
