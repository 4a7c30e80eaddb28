"""Cases of the separation that are about answers: the examples, tables under every marking, which crossing is the
lowest, failures, widths, every kind at the root (document 01, "Comparison and separation", "Answers of a node", "Panel
bench examples").
"""
import itertools

from compare_values import GATE_DIGITS, digits_of, listed_mux, program_of, table_tree
from comparisons import FIRST_STATES, bit, fails, told, value
from networks import ARG, DONT_CARE, REGISTER
from separations import SEPARATE, crossing, expect, expect_ways, scanned
from trees import bus, joined, lut, variables

TABLE_TREES = 260

# ---- document 01, "Panel bench examples"

EXAMPLES = {("And", "v0", "v1"): "0001", ("Mux", "v1", "dc", "v0"): "01dd", ("And", "v0", ("Xor", "v1", "v1")): "0000"}


def starred_examples(rng):
    """n = 2, v1 marked: "And(v0, v1) Crossing at 3; Mux(v1, DC, v0) Crossing at 2; And(v0, Xor(v1, v1)) Separate"."""
    zero, one = value(1, 0), value(1, 1)
    both, chosen, idle = EXAMPLES
    expect_ways(crossing(3, one, zero), both, 2, 2, rng, 8)
    expect_ways(crossing(2, fails(DONT_CARE), zero), chosen, 2, 2, rng, 8)
    expect_ways(SEPARATE, idle, 2, 2, rng, 8)
    # with every marking, and more variables than the list has
    for tree, states in EXAMPLES.items():
        for n, marks in itertools.product((2, 3, 5, 30), range(4)):
            expect(scanned(states, marks), tree, n, marks)
            if n > 2:
                expect(scanned(states, marks), tree, n, marks + 2 ** (n - 1))


# ---- tables of values, under every marking


def two_operand_luts():
    for program, marks in itertools.product(range(16), range(4)):
        for order in ((0, 1), (1, 0)):
            expect(scanned(digits_of(program, 2, order), marks), lut(program, *variables(order)), 2, marks)
        expect(scanned(digits_of(program, 2, (0, 1)), marks), lut(program, "v0", "v1"), 9, marks)
    for program, marks in itertools.product(range(4), range(2)):
        expect(scanned(digits_of(program, 1, (0,)), marks), lut(program, "v0"), 1, marks)
    for program in range(2):
        expect(SEPARATE, lut(program), 0, 0)
        expect(SEPARATE, lut(program), 3, 7)


def two_operand_gates(rng):
    for (name, digits), marks in itertools.product(GATE_DIGITS.items(), range(4)):
        for first, second in (("v0", "v1"), ("v1", "v0")):
            expect_ways(scanned(digits, marks), (name, first, second), 2, marks, rng, 1)
    for marks in range(8):
        expect_ways(scanned(digits_of(202, 3, (0, 1, 2)), marks), ("Mux", "v0", "v1", "v2"), 3, marks, rng, 1)
        expect_ways(scanned(digits_of(202, 3, (2, 0, 1)), marks), ("Mux", "v2", "v0", "v1"), 3, marks, rng, 1)
    for marks in range(2):
        expect_ways(scanned("10", marks), ("Not", "v0"), 1, marks, rng, 1)


def wide_luts(rng):
    """Programs over three to six operands in any order; half of them with one row, so that crossings come late too."""
    for count in (3, 4, 5, 6):
        for at in range(24):
            program = rng.randrange(2 ** 2 ** count) if at % 2 else 2 ** rng.randrange(2 ** count)
            order = rng.sample(range(count), count)
            marks = rng.randrange(2 ** count)
            states = digits_of(program, count, order)
            expect(scanned(states, marks), lut(program, *variables(order)), count + at % 3, marks)


def idle_operands(rng):
    """Operands of which no row depends on one: marked, that one alone, the list is separate; else it is not."""
    for count, place in itertools.product((2, 3, 4), range(4)):
        if place >= count:
            continue
        order = rng.sample(range(count), count)
        idle = 1 << order[place]
        # the parity of the other operands
        digits = [str((index & ~idle).bit_count() % 2) for index in range(2 ** count)]
        tree = lut(program_of(digits, order), *variables(order))
        for marks in range(2 ** count):
            expect(SEPARATE if marks in (0, idle) else scanned(digits, marks), tree, count, marks)


# ---- one assignment that is unlike the others


def spikes():
    """A table with one odd place, at each place under each marking: with a run bit in it the crossing is there, and
    answers oddly; without one the lowest run bit is added to it, and the odd answer is the cleared one."""
    for count in (1, 2, 3):
        for place, marks in itertools.product(range(2 ** count), range(2 ** count)):
            for base, odd in (("0", "1"), ("1", "d"), ("r", "0"), ("a", "r")):
                states = base * place + odd + base * (2 ** count - place - 1)
                lowest = marks & -marks
                if place & marks:
                    answer = crossing(place, told(odd), told(base))
                else:
                    answer = crossing(place + lowest, told(base), told(odd)) if marks else SEPARATE
                expect(answer, table_tree(states), count, marks)


def two_crossings(rng):
    """Two odd places: the lower crossing is named, also where its cleared assignment is the higher of the two."""
    for count in (3, 4):
        places = list(itertools.combinations(range(2 ** count), 2))
        for low, high in places if count == 3 else rng.sample(places, 60):
            for marks in rng.sample(range(1, 2 ** count), 3):
                states = ["0"] * 2 ** count
                states[low], states[high] = rng.choice(("11", "1d", "d1", "dr", "a1"))
                expect(scanned(states, marks), table_tree(states), count, marks)


def higher_cleared_first(rng):
    """Crossings at i1 < i2 whose cleared assignments stand the other way round: blocks of one cleared assignment, tried
    one after the other, would find i2 first."""
    for count in (2, 3, 4, 5):
        for marks in range(1, 2 ** count - 1):
            found = [(one, two) for one, two in itertools.combinations(range(2 ** count), 2)
                     if one & marks and two & marks and one & ~marks > two & ~marks]
            for one, two in rng.sample(found, min(len(found), 4)):
                states = ["0"] * 2 ** count
                states[one], states[two] = rng.choice(("11", "1d", "d1", "ra"))
                zero = value(1, 0)
                expect(crossing(one, told(states[one]), zero), table_tree(states), count, marks)


def higher_pattern_first(rng):
    """The same of the run bits that they have: patterns of run bits, tried one after the other, would find i2 first."""
    for count in (2, 3, 4, 5):
        for marks in range(1, 2 ** count - 1):
            found = [(one, two) for one, two in itertools.combinations(range(2 ** count), 2)
                     if one & marks > two & marks > 0]
            for one, two in rng.sample(found, min(len(found), 3)):
                states = ["1"] * 2 ** count
                states[one], states[two] = rng.choice(("00", "0d", "d0", "ra"))
                expect(crossing(one, told(states[one]), value(1, 1)), table_tree(states), count, marks)


# ---- failures: of a variable below n there is no undriven one, so 2, 3 and 4 are left


def one_variable_tables(rng):
    """Each pair of bits or failures where v0 is 0 and where it is 1: failing with 2 is not failing with 3."""
    for states in itertools.product(FIRST_STATES, repeat=2):
        tree = ("Mux", "v0", bit(states[1]), bit(states[0]))
        crossed = states[0] != states[1]
        answer = crossing(1, told(states[1]), told(states[0])) if crossed else SEPARATE
        expect_ways(answer, tree, 1, 1, rng, 2)
        expect(SEPARATE, tree, 1, 0)
        expect(answer, tree, 4, 15)
        expect(SEPARATE, tree, 4, 14)


def two_variable_tables():
    """Every table of bits and failures over two variables, under one of the markings each."""
    for at, states in enumerate(itertools.product(FIRST_STATES, repeat=4)):
        expect(scanned(states, 1 + at % 3), table_tree(states), 2, 1 + at % 3)


def drawn_tables(rng):
    """Tables of three to five variables, most of them nearly constant or with the same row again and again."""
    for at in range(TABLE_TREES):
        count = rng.choice([3, 3, 4, 4, 5])
        marks = rng.randrange(2 ** count)
        row = [rng.choice(FIRST_STATES) for _ in range(2 ** count)]
        # every assignment answers as its cleared one, and some do not
        states = [row[index & ~marks] for index in range(2 ** count)]
        for _ in range(rng.choice([0, 1, 1, 2, 3])):
            states[rng.randrange(2 ** count)] = rng.choice(FIRST_STATES)
        expect(scanned(states, marks), listed_mux(states, 0, rng), count + at % 3, marks)


def absorbed_failures(rng):
    """And and Nor over a failure: 0, and 1, absorb it; of two failures the first."""
    zero = value(1, 0)
    for letter in "dra":
        for operands in itertools.permutations(("v0", bit(letter))):
            expect_ways(crossing(1, told(letter), zero), ("And", *operands), 1, 1, rng, 1)
            expect_ways(crossing(1, zero, told(letter)), ("Nor", *operands), 1, 1, rng, 1)
            expect_ways(SEPARATE, ("Xor", *operands), 1, 1, rng, 1)
            expect_ways(SEPARATE, ("And", ("And", *operands), "0"), 1, 1, rng, 1)
            expect_ways(SEPARATE, ("Nor", "1", ("Nor", *operands)), 1, 1, rng, 1)
    for one, two in itertools.permutations("dra", 2):
        for name in GATE_DIGITS:
            tree = ("Mux", "v1", (name, bit(one), bit(two)), (name, bit(two), bit(one)))
            expect(crossing(2, told(one), told(two)), tree, 2, 2)
            expect(SEPARATE, tree, 2, 1)
        # the failing operand that comes first is another one
        chosen = ("Mux", "v0", bit(one), "1")
        expect(crossing(1, told(one), told(two)), ("Xor", chosen, bit(two)), 1, 1)
        expect(SEPARATE, ("Xor", bit(two), chosen), 1, 1)
        expect(crossing(1, told(one), told(two)), ("And", chosen, bit(two)), 1, 1)
        # of a bus the last failing member
        expect(crossing(1, told(one), told(two)), ("Bus", bit(two), chosen), 1, 1)
        expect(SEPARATE, ("Bus", chosen, bit(two)), 1, 1)


def failing_operands(rng):
    """A Lut with an operand that fails, always or where a marked variable is 1; no other operand makes a difference."""
    for letter, k in itertools.product("dra", (1, 2, 3, 6)):
        for place in range(k):
            operands = variables(range(k))
            chosen = ("Mux", operands[place], bit(letter), "0")
            operands[place] = bit(letter)
            whole = 2 ** 2 ** k - 1
            expect(SEPARATE, lut(whole, *operands), k, 2 ** k - 1)
            operands[place] = chosen
            # every row is 1, and the failure goes before
            answer = crossing(2 ** place, told(letter), value(1, 1))
            expect(answer, lut(whole, *operands), k, 2 ** k - 1)
            expect(SEPARATE, lut(whole, *operands), k, 2 ** k - 1 - 2 ** place)
            if k < 6:
                expect_ways(answer, lut(whole, *operands), k, 2 ** place, rng, 1)
    # of two failing operands the first
    for one, two in itertools.permutations("dra", 2):
        chosen = ("Mux", "v1", bit(one), "0")
        expect(crossing(2, told(one), told(two)), lut(6, chosen, bit(two)), 2, 2)
        expect(SEPARATE, lut(6, bit(two), chosen), 2, 2)


def arms_not_looked_at(rng):
    """Of a Mux the arm that is not chosen may fail, or hold a marked variable."""
    zero, one = value(1, 0), value(1, 1)
    for letter in "dra":
        tree = ("Mux", "v0", "v1", bit(letter))
        expect_ways(crossing(3, one, zero), tree, 2, 2, rng, 2)
        expect_ways(crossing(1, zero, told(letter)), tree, 2, 1, rng, 2)
        expect_ways(crossing(1, zero, told(letter)), tree, 2, 3, rng, 1)
        for constant, arms in (("0", (bit(letter), "v0")), ("1", ("v0", bit(letter)))):
            expect_ways(SEPARATE, ("Mux", constant, *arms), 2, 2, rng, 1)
            expect_ways(crossing(1, one, zero), ("Mux", constant, *arms), 2, 3, rng, 1)
        # the selector's failure, whatever the arms are
        expect_ways(SEPARATE, ("Mux", bit(letter), "v0", "v1"), 2, 3, rng, 1)
    expect_ways(SEPARATE, ("Mux", "0", "v1", "v0"), 2, 2, rng)
    expect_ways(SEPARATE, ("Mux", ("And", "v0", ("Not", "v0")), "v1", "v2"), 3, 2, rng)
    expect_ways(crossing(4, one, zero), ("Mux", ("And", "v0", ("Not", "v0")), "v1", "v2"), 3, 6, rng)
    # both arms alike: the marked selector makes no difference, unless it fails
    expect_ways(SEPARATE, ("Mux", "v1", "v0", "v0"), 2, 2, rng)
    expect_ways(SEPARATE, ("Mux", "v1", ("Not", ("Not", "v0")), "v0"), 2, 2, rng)
    expect_ways(crossing(2, fails(ARG), zero), ("Mux", ("And", "v1", bit("a")), "v0", "v0"), 2, 2, rng)


# ---- widths


def one_bit_of_a_bus(rng):
    """A bus that crosses in one member: its place is told by the value ("its last member is bit 0")."""
    for width in (1, 2, 3, 8, 63, 64):
        places = range(width) if width < 63 else rng.sample(range(width), 8) + [0, width - 1]
        for place in places:
            digits = [rng.choice("01") for _ in range(width)]
            low, high = list(digits), list(digits)
            low[place], high[place] = "0", "1"
            digits[place] = "v1"
            answer = crossing(2, value(width, int("".join(high), 2)), value(width, int("".join(low), 2)))
            expect(answer, ("Bus", *digits), 2, 2)
            expect(SEPARATE, ("Bus", *digits), 2, 1)
    for marks in range(1, 16):
        lowest = marks & -marks
        place = lowest.bit_length() - 1
        expect(crossing(lowest, value(4, 8 >> place), value(4, 0)), ("Bus", *variables(range(4))), 4, marks)
        expect(crossing(lowest, value(4, 1 << place), value(4, 0)), ("Bus", *variables((3, 2, 1, 0))), 4, marks)


def chosen_buses(rng):
    """A Mux of two buses by a marked selector, and by one that is not marked."""
    for width in (1, 2, 5, 64):
        for _ in range(6):
            ones, others = ([rng.choice("01") for _ in range(width)] for _ in range(2))
            tree = ("Mux", "v2", bus(ones), bus(others))
            crossed = ones != others
            sides = (value(width, int("".join(side), 2)) for side in (ones, others))
            expect_ways(crossing(4, *sides) if crossed else SEPARATE, tree, 3, 4, rng, 1)
            expect(SEPARATE, tree, 3, 3)
    for width, letter in itertools.product((0, 1, 2, 64), "dra"):
        failing = ("Mux", bit(letter), bus("1" * width), bus("0" * width))
        tree = ("Mux", "v0", failing, bus("1" * width))
        expect(crossing(1, told(letter), value(width, 2 ** width - 1)), tree, 1, 1)
        expect(SEPARATE, ("Mux", "v0", failing, failing), 1, 1)


def narrow_buses(rng):
    """A bus of one is no bit, and of none has no value but 0 of width 0."""
    zero, one = value(1, 0), value(1, 1)
    for tree in (("Bus", "v0"), ("Cycle", ("Bus", "v0")), ("And", ("Bus", "v0"), ("Bus", "v0"))):
        expect_ways(crossing(1, one, zero), tree, 1, 1, rng, 2)
        expect_ways(SEPARATE, tree, 2, 2, rng, 2)
    expect_ways(crossing(1, zero, one), ("Not", ("Bus", "v0")), 1, 1, rng, 2)
    empty = ("Bus",)
    for tree in (empty, ("Not", empty), ("Mux", "v0", empty, ("Not", empty)), ("Nor", empty, empty)):
        for n, marks in ((1, 0), (1, 1), (3, 7), (30, 2 ** 30 - 1)):
            expect(SEPARATE, tree, n, marks)
    # a bus of none that fails or not
    for letter in "dra":
        tree = ("Mux", ("And", "v0", bit(letter)), empty, empty)
        expect(crossing(1, told(letter), value(0, 0)), tree, 1, 1)


def bus_gates(rng):
    """Gates of buses: bitwise; a failing member fails the whole bus, and all zeros, or ones, absorb it."""
    ones = {"And": lambda a, b: a & b, "Nor": lambda a, b: 3 - (a | b), "Xor": lambda a, b: a ^ b}
    for (name, of_values), marks in itertools.product(ones.items(), range(1, 16)):
        tree = (name, ("Bus", "v0", "v1"), ("Bus", "v2", "v3"))
        values = [of_values((i & 1) * 2 + (i >> 1 & 1), (i >> 2 & 1) * 2 + (i >> 3)) for i in range(16)]
        index = next(i for i in range(16) if values[i] != values[i & ~marks])
        expect(crossing(index, value(2, values[index]), value(2, values[index & ~marks])), tree, 4, marks)
    for letter in "dra":
        failing = ("Bus", bit(letter), "1")
        expect_ways(crossing(1, told(letter), value(2, 0)), ("And", failing, ("Bus", "v0", "v0")), 1, 1, rng, 1)
        expect_ways(SEPARATE, ("And", failing, ("Bus", "v0", "1")), 1, 1, rng, 1)
        expect_ways(crossing(1, value(2, 0), told(letter)), ("Nor", failing, ("Bus", "v0", "v0")), 1, 1, rng, 1)
        expect_ways(SEPARATE, ("Nor", failing, ("Bus", "v0", "0")), 1, 1, rng, 1)
        expect_ways(SEPARATE, ("Xor", failing, ("Bus", "v0", "v0")), 1, 1, rng, 1)


# ---- every kind


def kinds_at_the_root(rng):
    zero, one = value(1, 0), value(1, 1)
    for tree in ("0", "1", "dc", bit("r"), bit("a"), ("Cycle", "dc"), ("Cycle", bit("r"))):
        for n, marks in ((0, 0), (1, 1), (2, 2), (12, 4095)):
            expect_ways(SEPARATE, tree, n, marks, rng, 1)
    for name in ("Fdre", "Fdse", "Fdpe", "Fdce"):
        # a register fails with 3 whatever it is over, marked or not
        for tree in ((name, "v0", "v1", "v2", "v3"), (name, *["v0"] * 4), (name, ("Bus", "v0", "v1"), "dc", "0", "v2")):
            for marks in (0, 1, 5, 15):
                expect(SEPARATE, tree, 4, marks)
        tree = ("Mux", "v3", (name, *["v0"] * 4), "v1")
        expect(crossing(8, fails(REGISTER), zero), tree, 4, 8)
        expect(crossing(2, one, zero), tree, 4, 2)
    rising = ["v1", ("Cycle", "v1"), ("Mux", "v1", "1", "0"), lut(2, "v1"), ("And", "v1", "1"), ("Xor", "0", "v1"),
              ("Bus", "v1"), lut(8, "v1", "v1"), ("Cycle", ("Cycle", "v1"))]
    falling = [("Not", "v1"), ("Nor", "v1", "0"), lut(1, "v1"), ("Mux", "v1", "0", "1"), ("Xor", "1", "v1"),
               ("Not", ("Bus", "v1"))]
    for trees, sides in ((rising, (one, zero)), (falling, (zero, one))):
        for tree in trees:
            expect_ways(crossing(2, *sides), tree, 2, 2, rng, 1)
            expect_ways(crossing(2, *sides), tree, 3, 7, rng, 1)
            expect_ways(SEPARATE, tree, 3, 5, rng, 1)


def cancelled(rng):
    """A marked variable that is there and makes no difference."""
    trees = [("Xor", "v1", "v1"), ("And", "v1", ("Not", "v1")), ("Nor", "v1", ("Not", "v1")), ("And", "0", "v1"),
             ("Nor", "1", "v1"), lut(0, "v1"), lut(12, "v0", "v1"), ("Mux", "v1", "v0", "v0"), ("Mux", "0", "v1", "v0"),
             ("And", "v0", ("Xor", "v1", "v1")), ("Xor", ("Xor", "v0", "v1"), "v1"), ("Mux", "dc", "v1", "v1"),
             ("Fdre", "v1", "v1", "v1", "v1"), ("Xor", bit("a"), "v1"), ("Bus", "v0", ("And", "v1", "0")),
             joined("Xor", ["v1", "v0", "v1", "v0", "v1", "v1"])]
    for tree in trees:
        expect_ways(SEPARATE, tree, 2, 2, rng, 2)
        expect_ways(SEPARATE, tree, 30, 2 ** 30 - 2, rng, 1)


BY_HAND = (
    starred_examples, two_operand_luts, two_operand_gates, wide_luts, idle_operands, spikes, two_crossings,
    higher_cleared_first, higher_pattern_first, one_variable_tables, two_variable_tables, drawn_tables,
    absorbed_failures, failing_operands, arms_not_looked_at, one_bit_of_a_bus, chosen_buses, narrow_buses, bus_gates,
    kinds_at_the_root, cancelled)
