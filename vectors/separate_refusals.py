"""Cases of the separation that refuse, and the space that it is lent (document 01, "Numbers a call answers with").
"""
import itertools

import model
from compare_refusals import small_lists
from comparisons import (FAILS, LITTLE_WORK, NO_ROOT, NOT_ALIGNED, NOT_EVALUABLE, OVER_LIMIT, WORK_ROOM, asked, bit,
                         fails, value)
from lister import KIND, LARGEST, blank_nodes, of
from networks import DONT_CARE, Network, unevaluable, unverified
from separations import OUT_OF_BOUNDS, SEPARATE, crossing, expect, expect_ways, refused
from trees import WAYS, bus, listed, variables

ZERO, ONE = value(1, 0), value(1, 1)
MOST = model.MOST_INPUTS
HIGHEST = 2 ** 31
BEYOND = refused(OUT_OF_BOUNDS)

# n and marks that number 11 lets pass for variables 0 and 1, and that it does not
SOUND_BOUNDS = ((2, 0), (2, 2), (30, 2 ** 30 - 1))
FAULTY_BOUNDS = ((31, 0), (LARGEST, 0), (2, 4), (0, 1), (2, LARGEST), (30, 2 ** 30), (LARGEST, LARGEST))

# ---- numbers 1 to 8, and 11 behind them


def each_number():
    """Each number that a list alone can bring, with bounds that are sound and with bounds that 11 would refuse."""
    for number, (faulty, node) in small_lists().items():
        for n, marks in SOUND_BOUNDS + FAULTY_BOUNDS:
            beyond = (n, marks) in FAULTY_BOUNDS
            behind = BEYOND if beyond else (crossing(1, ONE, ZERO) if marks & 1 else SEPARATE)
            expect(refused(number, node) if number else behind, faulty, n, marks)
            if asked(faulty):
                # 1 before 10 before all others
                short = refused(NOT_ALIGNED if number == NOT_ALIGNED else LITTLE_WORK)
                expect(short, faulty, n, marks, work=asked(faulty) - 1)
    for words, (n, marks) in itertools.product((1, 2, 4, 5), ((0, 0), (31, 1))):
        expect(refused(NOT_ALIGNED), of(*[0] * words), n, marks, work=0)
        expect(refused(NOT_ALIGNED), of(*[LARGEST] * words), n, marks, work=40)
    for kind, (n, marks) in itertools.product((17, 18, 255, LARGEST), ((1, 1), (0, LARGEST))):
        expect(refused(3), of(kind, LARGEST, LARGEST), n, marks)
        expect(refused(3, 1), of(0, 0, 0, kind, 0, 0), n, marks)
    for words in ([0, 2, 0], [0, 0, 1], [2, 1, 0], [3, 256, 0], [3, 0, 1], [6, 0, 1], [8, 0, 1], [10, 1, 0],
                  [9, LARGEST, 1]):
        expect(refused(4), of(*words), 1, 1)
        expect(refused(4), of(*words), 0, HIGHEST)
    for child, (n, marks) in itertools.product((0, 1, LARGEST), ((1, 1), (31, 0))):
        expect(refused(5), of(8, 0, 1, pool=[child]), n, marks)
        expect(refused(5), of(8, 0, 1, 3, 0, 0, pool=[child]), n, marks)
    for pool, (n, marks) in itertools.product(([], [4], [LARGEST] * 9), ((0, 0), (30, 5), (31, 0), (0, 1))):
        expect(refused(NO_ROOT), of(pool=pool), n, marks)


def verified_and_evaluable():
    """Every sort of 6 and 8, 11 behind it or not; where the root does not reach it, it is no fault."""
    for number, makers in ((FAILS, unverified()), (NOT_EVALUABLE, unevaluable())):
        for make in makers.values():
            net = Network()
            fault = make(net)
            expect(refused(number, fault), net, 1, 1)
            # its variable 0 is at n, besides
            expect(refused(number, fault), net, 0, 0)
            net.var(0)
            expect(crossing(1, ONE, ZERO), net, 1, 1)
            expect(BEYOND, net, 0, 0)
    for program in (0, 2 ** 64 - 1):
        for n, marks in ((0, 0), (2, 1), (31, 0), (0, 1)):
            expect(refused(NOT_EVALUABLE), f"p{program}", n, marks)


def layout_order():
    """The lowest faulty node, and of a node with two faults the lowest number; 11 behind them all."""
    faults = {3: [17, 0, 1], 4: [KIND["And"], 0, 1], 5: [KIND["Not"], 0, 1]}
    for (number, words), (_, more) in itertools.product(faults.items(), repeat=2):
        faulty = of(3, 0, 0, *words, 3, 1, 0, *more, pool=[3])
        expect(refused(number, 1), faulty, 2, 2)
        expect(refused(number, 1), faulty, 1, 2)
    expect(refused(4, 0), of(KIND["And"], 0, 1, pool=[2]), 0, 0)
    # 3, 4 and 5 of a high node before 6 and 8 of a lower; 6 of a high node before 8 of a lower
    for number, words in faults.items():
        expect(refused(number, 1), of(9, 0, 0, *words, pool=[1]), 0, 0)
        expect(refused(number, 2), of(1, 0, 0, 8, 1, 1, *words, pool=[2, 0]), 0, 0)
    both = of(1, 0, 0, 8, 0, 1, 9, 0, 0, 6, 1, 2, pool=[0, 1, 2])
    expect(refused(FAILS, 2), both, 0, 0)
    expect(refused(FAILS, 2), both, 31, 1)


# ---- number 11 ("n above 30, a variable at n or above anywhere in the list, or a mark at bit n or above")

OVER_THIRTY = (31, 32, 33, 62, 63, 64, 65, 255, 256, 257, 1023, 65536, HIGHEST - 1, HIGHEST, HIGHEST + 30, LARGEST)


def n_above_thirty():
    """Alone, where no variable and no mark is past n; and with marks at bits 30 and 31."""
    for n in OVER_THIRTY:
        for tree in ("0", ("And", "v0", "v29")):
            for marks in (0, 1, 2 ** 30 - 1, 2 ** 30, HIGHEST, LARGEST):
                expect(BEYOND, tree, n, marks)
    for n in range(31):
        expect(SEPARATE, "1", n, 2 ** n - 1)
        expect(crossing(1, ONE, ZERO) if n else BEYOND, "v0", n, 2 ** n - 1)
    for number in (30, 31, 32, 255):
        # in place, were n not too large
        expect(BEYOND, f"v{number}", 256, 0)
        expect(BEYOND, f"v{number}", number + 1, 0)


def variables_at_n():
    """A variable at n and at n - 1: the root, below it, and not reached by it."""
    for n in (0, 1, 2, 3, 5, 8, 12, 29, 30):
        for number in sorted({max(n - 1, 0), n, n + 1, 31, 32, 255}):
            inside = number < n
            own = [KIND["Var"], number, 0]
            expect(SEPARATE if inside else BEYOND, f"v{number}", n, 0)
            expect(SEPARATE if inside else BEYOND, ("And", "0", f"v{number}"), n, 2 ** n - 1)
            # not reached: a lower node, and one below a node that is not reached itself
            expect(SEPARATE if inside else BEYOND, of(*own, KIND["Const"], 1, 0), n, 0)
            expect(SEPARATE if inside else BEYOND, of(*own, KIND["Not"], 0, 1, KIND["DC"], 0, 0, pool=[0]), n, 0)
            if n > 0:
                mixed = of(KIND["Var"], 0, 0, *own, KIND["Var"], 0, 0)
                expect(crossing(1, ONE, ZERO) if inside else BEYOND, mixed, n, 1)
                expect(crossing(1, ONE, ZERO) if inside else BEYOND, of(*own, KIND["Var"], 0, 0), n, 1)


def variables_anywhere():
    """One variable past n among 12 nodes, at each place; where there is none, the answer."""
    for place in range(12):
        nodes = [word for at in range(12) for word in (KIND["Var"], 3 if at == place else at % 3, 0)]
        expect(BEYOND, of(*nodes), 3, 1)
        last = 3 if place == 11 else 2
        expect(crossing(2 ** last, ONE, ZERO), of(*nodes), 4, 15)
    # words that are no variable's: a Program, entries of the pool, a first
    for given in (of(1, 200, 0, 0, 1, 0), of(0, 1, 0, pool=[3, 200, 0]), of(0, 1, 0, 1, 3, 3, 0, 0, 0)):
        expect(SEPARATE, given, 0, 0)
    far = of(3, 0, 0, 8, 40, 1, pool=[9] * 40 + [0])
    expect(crossing(1, ZERO, ONE), far, 1, 1)


def strangers_past_n(rng):
    """Every way of listing a tree: among strangers there is now and then a variable past n, which is 11."""
    tree = ("Mux", "v1", "dc", ("And", "v0", "v1"))
    for way, n, _ in itertools.product(WAYS.values(), (2, 10, 30), range(3)):
        given = way(tree, rng)
        beyond = any(kind == KIND["Var"] and first >= n for kind, first, _ in model.node_words(given[0]))
        expect(BEYOND if beyond else crossing(2, fails(DONT_CARE), ZERO), given, n, 2)


def marks_at_n():
    """A mark at bit n, at n - 1, above and at the top; alone, and beside others that are in place."""
    for n in range(31):
        inside = 2 ** n - 1
        tree = f"v{n - 1}" if n else "0"
        top = 2 ** n >> 1
        expect(crossing(top, ONE, ZERO) if n else SEPARATE, tree, n, top)
        for bit_number in sorted({n, n + 1, 30, 31} & set(range(n, 32))):
            expect(BEYOND, tree, n, 2 ** bit_number)
            expect(BEYOND, tree, n, 2 ** bit_number | inside)
        expect(BEYOND, tree, n, LARGEST)
        expect(BEYOND, tree, n, LARGEST - inside)
    for marks in (0, 1, 2, HIGHEST, LARGEST):
        expect(BEYOND if marks else SEPARATE, "dc", 0, marks)
        expect(BEYOND if marks else SEPARATE, ("Bus", "1", "0", "0"), 0, marks)


def two_causes():
    """Two of the three causes together, and all."""
    for n, tree, marks in ((31, "v31", 0), (31, "v0", HIGHEST), (2, "v2", 4), (0, "v0", 1), (40, "v40", LARGEST),
                           (LARGEST, "v255", LARGEST), (256, "v255", 0), (1, ("Xor", "v0", "v1"), 2)):
        expect(BEYOND, tree, n, marks)


def eleven_in_its_place():
    """Behind 8 and before any answer: what would cross, and what would be separate, refuse alike."""
    for tree in ("v0", ("Mux", "v0", "dc", "0"), ("Xor", "v0", "v0"), bit("r"), ("Bus", "v0", "v1"), "1"):
        for n, marks in ((31, 1), (2, 5), (2, 4), (0, 1), (LARGEST, 1)):
            expect(BEYOND, tree, n, marks)
            expect(refused(LITTLE_WORK), tree, n, marks, work=asked(listed(tree)) - 1)
    for make in unevaluable().values():
        net = Network()
        net.var(7)
        fault = make(net)
        for n, marks in ((7, 0), (8, 256)):
            expect(refused(NOT_EVALUABLE, fault), net, n, marks)


# ---- number 10 and the work space


def work_lengths(rng):
    register = ("Fdre", "v0", "v1", "dc", "0")
    for tree, n, marks, answer in (
            ("0", 0, 0, SEPARATE), ("v0", 1, 1, crossing(1, ONE, ZERO)), ("v0", 0, 0, BEYOND),
            (("And", "v0", "v1"), 2, 2, crossing(3, ONE, ZERO)), (("And", "v0", "v1"), 2, 0, SEPARATE),
            (("And", "v0", "v1"), 30, 2 ** 30 - 4, SEPARATE), (("And", "v0", "v1"), 31, 0, BEYOND),
            (register, 2, 3, SEPARATE), (("Mux", "v1", register, "0"), 2, 2, crossing(2, (3, 0, 0), ZERO)),
            (bus("10" * 32), 3, 5, SEPARATE), ("p5", 0, 0, refused(NOT_EVALUABLE))):
        exact = asked(listed(tree))
        for more in (0, 1, 7, 100, 1000):
            expect(answer, tree, n, marks, work=exact + more)
        for room in sorted({exact - 1, exact - 2, exact // 2, 1, 0}):
            expect(refused(LITTLE_WORK), tree, n, marks, work=room)
    # entries that no node has ask for work space too
    padded = of(0, 1, 0, pool=[7, 8, 9])
    for room in (22, 23):
        expect(SEPARATE, padded, 0, 0, work=room)
    for room in (21, 20, 16, 0):
        expect(refused(LITTLE_WORK), padded, 0, 0, work=room)
    expect(crossing(1, ONE, ZERO), "v0", 1, 1, work=WORK_ROOM)
    expect(refused(3), of(17, 0, 0), 0, 0, work=WORK_ROOM)
    for given, room in ((of(), 0), (of(), 5), (of(pool=[1]), 2)):
        expect(refused(NO_ROOT), given, 31, LARGEST, work=room)
    expect(refused(LITTLE_WORK), of(pool=[1]), 31, LARGEST, work=1)
    expect_ways(crossing(2, ONE, ZERO), ("Xor", "v1", ("And", "v0", "0")), 2, 3, rng, 8)


# ---- "At most 4,096 nodes and 16,384 pool entries"


def the_limits():
    over, under = of(*blank_nodes(model.MOST_NODES + 1)), of(*blank_nodes(model.MOST_NODES))
    # 2 before 10, 3 to 8 and 11; 1 before 2
    expect(refused(OVER_LIMIT), over, 0, 0, work=WORK_ROOM)
    expect(refused(OVER_LIMIT), over, 31, 1, work=0)
    expect(refused(NOT_ALIGNED), of(*blank_nodes(model.MOST_NODES + 1, 2)), 31, 1, work=0)
    expect(refused(NOT_ALIGNED), of(*blank_nodes(model.MOST_NODES + 1, 1)), 0, 0, work=WORK_ROOM)
    expect(refused(NOT_ALIGNED), of(3, 0, 0, 0, pool=[0] * (model.MOST_POOL + 1)), 1, 1, work=0)
    expect(SEPARATE, under, 1, 1)
    expect(BEYOND, under, 1, 2)
    expect(refused(LITTLE_WORK), under, 1, 2, work=asked(under) - 1)
    for entries, answer in ((model.MOST_POOL, crossing(1, ONE, ZERO)), (model.MOST_POOL + 1, refused(OVER_LIMIT))):
        given = of(3, 0, 0, pool=[0] * entries)
        expect(answer, given, 1, 1)
    expect(refused(OVER_LIMIT), of(17, 0, 0, pool=[0] * (model.MOST_POOL + 1)), 31, 0, work=0)
    expect(refused(OVER_LIMIT), of(pool=[0] * (model.MOST_POOL + 1)), 0, 0, work=0)
    # the last of 4,096 crosses, and the first of them is past n
    high = of(KIND["Var"], 5, 0, *blank_nodes(model.MOST_NODES - 2), KIND["Var"], 2, 0)
    expect(crossing(4, ONE, ZERO), high, 6, 63)
    expect(BEYOND, high, 5, 31)
    # a bus of 64 members, and of 65
    many = variables([at % 6 for at in range(64)])
    whole = sum(1 << 63 - at for at in range(0, 64, 6))
    expect(crossing(1, value(64, whole), value(64, 0)), ("Bus", *many), 6, 63)
    expect(refused(4, 6), ("Bus", *many, "v0"), 6, 63)


BY_HAND = (
    each_number, verified_and_evaluable, layout_order, n_above_thirty, variables_at_n, variables_anywhere,
    strangers_past_n, marks_at_n, two_causes, eleven_in_its_place, work_lengths, the_limits)
