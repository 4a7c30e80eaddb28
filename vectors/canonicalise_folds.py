"""Cases of the canonicaliser that are about folding (document 01, "Canonical list"): the gates' programs, the three
rules, constants at every place, operands that no row depends on, and what folding brings up from below.
"""
import itertools

from canonicals import expect, expect_ways, stays
from comparisons import bit
from lister import of
from trees import lut, variables

CONSTANTS = ("0", "1")
# trees that no rule changes, of every sort that may be an operand
OPERANDS = ("v0", "dc", bit("r"), bit("a"), lut(1, "v0"), lut(8, "v0", "v1"), ("Cycle", "v1"), lut(6, "v1", "v1"))

# ---- what is left of a Lut, said of all its rows at once


def folded(program, operands):
    """An operand stays if it is no constant and, with the constants at their places, some row pair depends on it. None
    left: the constant. One left, and the rows are its values: the operand. Otherwise the Lut of the rows left."""
    free = [place for place, operand in enumerate(operands) if operand not in CONSTANTS]

    def row(driven):
        digits = [driven.get(place, operand) for place, operand in enumerate(operands)]
        return program >> int("".join(digits) or "0", 2) & 1

    def matters(place):
        others = [other for other in free if other != place]
        found = (dict(zip(others, digits)) for digits in itertools.product("01", repeat=len(others)))
        return any(row({**driven, place: "0"}) != row({**driven, place: "1"}) for driven in found)

    left = [place for place in free if matters(place)]
    at_zero = dict.fromkeys(free, "0")
    rows = [row({**at_zero, **dict(zip(left, digits))}) for digits in itertools.product("01", repeat=len(left))]
    if not left:
        return str(rows[0])
    if rows == [0, 1]:
        return operands[left[0]]
    return lut(sum(digit << number for number, digit in enumerate(rows)), *[operands[place] for place in left])


def expect_folded(program, operands):
    expect(folded(program, operands), lut(program, *operands))


# ---- examples


def starred_examples(rng):
    """Document 01: And(v0, v1) is "nodes 1,8,0, 3,0,0, 3,1,0, 9,0,3; pool 0,1,2"; Mux(true, v0, v1) is "3,0,0, empty
    pool"."""
    expect_ways(of(1, 8, 0, 3, 0, 0, 3, 1, 0, 9, 0, 3, pool=[0, 1, 2]), ("And", "v0", "v1"), rng, 12)
    expect_ways(of(3, 0, 0), ("Mux", "1", "v0", "v1"), rng, 12)
    # docs/DECISIONS.md, the order of the canonical list
    order = of(1, 8, 0, 1, 1, 0, 3, 1, 0, 9, 0, 2, 3, 0, 0, 9, 2, 3, pool=[1, 2, 0, 3, 4])
    expect_ways(order, ("And", ("Not", "v1"), "v0"), rng, 12)


def where_the_rust_differs(rng):
    """Inputs whose value the Rust's canonicaliser changes, over which it panics, or which it stops folding early."""
    nested = ("Mux", "0", ("Mux", "0", ("Nor", "0", "0"), ("Mux", "0", "1", "0")), ("Mux", "0", "0", "0"))
    for canonical, tree in (
            (lut(1, "v0"), lut(3, "v0", lut(3, "v0"))),
            ("v1", ("Mux", "0", ("And", "v1", "0"), ("Mux", "0", "0", "v1"))),
            ("1", lut(5, ("Not", "v0"), ("Nor", "1", "v0"))),
            (lut(6, lut(1, "v0"), lut(1, "v0", "v1")),
             ("Xor", ("Nor", "v0", "0"), ("Nor", ("Mux", "0", "v1", "v0"), "v1"))),
            ("0", nested), ("0", lut(0)), ("1", lut(1)), ("1", ("Not", lut(4, "0", "0"))),
            # document 01, "Slips": a constant that program 2 brings up
            ("v0", lut(8, "v0", lut(2, "1"))), ("0", lut(8, "dc", lut(2, "0")))):
        expect_ways(canonical, tree, rng, 4)


# ---- "Mux, And, Xor, Nor, Not become Luts of programs 202, 8, 6, 1, 1"

GATES = {"Mux": (202, 3), "And": (8, 2), "Xor": (6, 2), "Nor": (1, 2), "Not": (1, 1)}


def gates(rng):
    """Over variables in every order, over equal ones, and over what stays as it is."""
    for name, (program, count) in GATES.items():
        for numbers in itertools.product(range(3), repeat=count):
            operands = variables(numbers)
            expect(lut(program, *operands), (name, *operands))
        for operand in OPERANDS:
            expect_ways(lut(program, *[operand] * count), (name, *[operand] * count), rng, 1)


def gates_over_constants():
    """A gate over constants and variables, each at each place, is what the Lut of its program is."""
    for name, (program, count) in GATES.items():
        for choice in itertools.product((*CONSTANTS, "v"), repeat=count):
            operands = [f"v{place}" if one == "v" else one for place, one in enumerate(choice)]
            expect(folded(program, operands), (name, *operands))
            expect_folded(program, operands)


# ---- rules 1 and 2


def no_operand_and_one(rng):
    """k = 0: "the constant". k = 1: "program 0 false, 3 true, 2 the operand; 1 over a constant, its negation; otherwise
    stay"."""
    for program in (0, 1):
        expect_ways(str(program), lut(program), rng, 3)
    for operand in OPERANDS + CONSTANTS:
        expect_ways("0", lut(0, operand), rng, 2)
        expect_ways("1", lut(3, operand), rng, 2)
        expect_ways(operand, lut(2, operand), rng, 2)
    for operand in OPERANDS:
        stays(lut(1, operand), rng, 2)
        expect_ways(lut(1, operand), ("Not", operand), rng, 1)
    expect_ways("1", lut(1, "0"), rng, 3)
    expect_ways("0", lut(1, "1"), rng, 3)


# ---- rule 3: "drop the first constant operand"


def constants_of_few(rng):
    """Up to three operands, constants at all places: every program of two, some of three."""
    for count in (1, 2, 3):
        for choice in itertools.product((*CONSTANTS, "v"), repeat=count):
            operands = [f"v{place}" if one == "v" else one for place, one in enumerate(choice)]
            every = range(2 ** 2 ** count)
            for program in every if count < 3 else rng.sample(every, 5):
                expect_folded(program, operands)


def constants_of_four(rng):
    """Every set of places."""
    for places in itertools.product((False, True), repeat=4):
        for _ in range(3):
            operands = [rng.choice(CONSTANTS) if constant else f"v{place}" for place, constant in enumerate(places)]
            expect_folded(rng.randrange(2 ** 16), operands)


def constants_of_many(rng):
    """Five and six operands: one constant at each place, all but one, all."""
    for count in (5, 6):
        for place, constant in itertools.product(range(count), CONSTANTS):
            operands = variables(range(count))
            operands[place] = constant
            expect_folded(rng.randrange(2 ** 2 ** count), operands)
            others = [rng.choice(CONSTANTS) for _ in range(count)]
            others[place] = "v7"
            expect_folded(rng.randrange(2 ** 2 ** count), others)
        for _ in range(8):
            expect_folded(rng.randrange(2 ** 2 ** count), [rng.choice(CONSTANTS) for _ in range(count)])
            expect_folded(rng.randrange(2 ** 2 ** count), [rng.choice((*CONSTANTS, "v3", "v9")) for _ in range(count)])


def which_rows_are_kept():
    """One row of the program set: what is left has it, at its new number, only if the constant fits that row."""
    for count, place in itertools.product((2, 3, 6), range(6)):
        if place >= count:
            continue
        operands = variables(range(count))
        for row in range(2 ** count) if count < 6 else (0, 1, 21, 31, 32, 42, 62, 63):
            for constant in CONSTANTS:
                expect_folded(2 ** row, operands[:place] + [constant] + operands[place + 1:])


# ---- rule 3: "if none, the first operand that no row pair depends on"


def program_without(count, idle, rng):
    """A program over so many operands that depends on no idle one, and, most often, on the others."""
    wanted = [place for place in range(count) if place not in idle]
    digits = {row: rng.randint(0, 1) for row in itertools.product("01", repeat=len(wanted))}
    rows = itertools.product("01", repeat=count)
    return sum(digits[tuple(row[place] for place in wanted)] << number for number, row in enumerate(rows))


def idle_operands(rng):
    """One at each place, two, all but one, all."""
    for count in range(2, 7):
        idle_sets = [(place,) for place in range(count)] + list(itertools.combinations(range(count), 2))
        idle_sets += [tuple(other for other in range(count) if other != place) for place in range(count)]
        for idle in idle_sets:
            expect_folded(program_without(count, idle, rng), variables(range(count)))
        for program in (0, 2 ** 2 ** count - 1):
            expect_folded(program, variables(range(count)))
            expect_folded(program, ["dc"] * count)
            expect_folded(program, ["1"] * count)


def idle_beside_constants(rng):
    """A constant, an operand that makes no difference, and one that does, in every order; and operands that make none
    only once the constant is in place."""
    for places in itertools.permutations(range(3)):
        constant, idle, wanted = places
        for value in CONSTANTS:
            operands = [""] * 3
            operands[constant], operands[idle], operands[wanted] = value, "v4", "v5"
            expect_folded(program_without(3, (idle,), rng), operands)
    # v0 and (v1 or constant)
    for value in CONSTANTS:
        for order in itertools.permutations(("v0", "v1", value)):
            rows = itertools.product("01", repeat=3)
            place = {operand: at for at, operand in enumerate(order)}
            program = sum((row[place["v0"]] == "1" and "1" in (row[place["v1"]], row[place[value]])) << number
                          for number, row in enumerate(rows))
            expect("v0" if value == "1" else folded(program, order), lut(program, *order))


def idle_failures(rng):
    """An operand that fails is dropped like any other: only the rows count."""
    for operand in ("dc", bit("r"), bit("a")):
        expect_ways("v0", lut(12, "v0", operand), rng, 2)
        expect_ways("v0", lut(10, operand, "v0"), rng, 2)
        expect_ways("0", ("And", operand, "0"), rng, 2)
        expect_ways("0", ("Nor", "1", operand), rng, 2)
        expect_ways(operand, ("And", "1", operand), rng, 2)
        expect_ways(operand, ("Mux", "0", "v3", operand), rng, 2)
        expect_ways(lut(1, operand), ("Xor", operand, "1"), rng, 2)
        expect_ways("0", lut(0, operand, operand, operand), rng, 1)


def equal_operands(rng):
    """ "Equal operands aren't merged": rows that can't come up count all the same."""
    for tree in (lut(8, "v0", "v0"), lut(6, "v0", "v0"), lut(9, "v0", "v0"), lut(202, "v0", "v0", "v1"),
                 lut(202, "v0", "v1", "v1"), lut(2 ** 63, *["v0"] * 6), lut(4, lut(1, "v1"), lut(1, "v1"))):
        stays(tree, rng, 2)
    expect_ways(lut(6, "v1", "v1"), ("Xor", "v1", "v1"), rng, 2)
    expect_ways(lut(202, "v0", "v1", "v1"), ("Mux", "v0", "v1", "v1"), rng, 2)
    expect_ways(lut(1, "v0", "v0"), ("Nor", "v0", ("And", "1", "v0")), rng, 2)
    # dropped though its equal stays
    expect_ways("v0", lut(12, "v0", "v0"), rng, 2)
    expect_ways("v0", ("Mux", "1", "v0", "v0"), rng, 2)


# ---- "children first, each Lut is folded until no rule applies"


def folded_from_below(rng):
    """Constants and wires that come up through several nodes; a Lut that is folded stands below one that is not."""
    half = ("Nor", ("And", "v0", "0"), "v1")
    for canonical, tree in (
            (lut(1, "v1"), half), (lut(8, lut(1, "v1"), "v2"), ("And", half, "v2")),
            ("1", ("Not", ("And", "v0", ("Nor", "1", "dc")))), ("0", ("Not", ("Not", ("Xor", "1", "1")))),
            (lut(1, lut(1, "v0")), ("Not", ("Not", "v0"))), (lut(1, lut(1, "dc")), ("Not", ("Nor", "0", "dc"))),
            ("v0", ("Xor", "0", ("Xor", "v0", "0"))), (lut(6, "v0", lut(1, "v1")), ("Xor", "v0", ("Xor", "1", "v1"))),
            (("Bus", "v0", "1"), ("Bus", ("And", "1", "v0"), lut(1))),
            (("Cycle", "v2"), ("Cycle", ("Mux", "1", "v2", "dc"))),
            (("Fdre", "v0", "1", "0", "dc"), ("Fdre", lut(2, "v0"), lut(3, "v9"), ("And", "0", "v9"), "dc")),
            # a Cycle, a register and a DC are no constants, whatever is below
            (lut(8, ("Cycle", "0"), "v0"), ("And", ("Cycle", "0"), "v0")),
            (lut(1, ("Cycle", "1")), ("Not", ("Cycle", ("Not", "0")))),
            (lut(8, ("Fdse", *"0000"), "v0"), ("And", ("Fdse", *"0000"), "v0")),
            ("v3", ("Mux", ("Mux", "1", "1", "0"), ("Mux", "0", "v2", "v3"), ("Cycle", "v4")))):
        expect_ways(canonical, tree, rng, 3)


def columns_of_constants():
    """Fifty gates, each over the one below and a constant that keeps, turns or ends what comes up."""
    for name, constant, turns in (("And", "1", False), ("Xor", "0", False), ("Xor", "1", True), ("Nor", "0", True)):
        canonical = tree = "v6"
        for at in range(50):
            tree = (name, tree, constant) if at % 2 else (name, constant, tree)
            canonical = lut(1, canonical) if turns else canonical
        expect(canonical, tree)
        expect("0", ("And", tree, "0"))
        expect("v1", ("Mux", ("And", "0", tree), tree, "v1"))


BY_HAND = (
    starred_examples, where_the_rust_differs, gates, gates_over_constants, no_operand_and_one, constants_of_few,
    constants_of_four, constants_of_many, which_rows_are_kept, idle_operands, idle_beside_constants, idle_failures,
    equal_operands, folded_from_below, columns_of_constants)
