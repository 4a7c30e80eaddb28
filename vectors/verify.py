"""Cases of the verifier, with their answers (document 01, "Numbers a call answers with" and "Verification").

usage: python3 vectors/verify.py      writes crates/replay_verify/stdin and stdout

How the cases are made: lists at each boundary of numbers 1 to 6 and 10 are written out by hand below, each with the
answer that document 01 gives it; then sound lists of up to 30 nodes are drawn, and each is given too in damaged copies:
a word changed, a word dropped, the work space one word short. Every answer, and whether the work space is cleared, is
what vectors/model.py computes; an answer that is written out here must be the model's. The last cases are the original
Rust's: vectors/oracle/verify.txt has them with its yes or no (oracle/sample), which must be the model's too, or this
stops; the faulty node is the model's.

A case is one line of decimal words, as crates/replay_verify/src/cases.rt says:
  node_words pool_entries work_words  number node cleared  node words..  pool entries..
The work space lent before the call holds no 0 and no two words alike; cleared is 1 where it is to be all zeros, 0 where
it is to be untouched. The same cases come out at each run, byte for byte: the drawn ones are from a fixed seed.
"""
import os
import random
import sys
from collections import Counter

import model
import original
from lister import INNER, KIND, LARGEST, Lister, blank_nodes, drawn_list, of, word_changed, word_dropped
from model import CHILDREN, HALF, KINDS

HERE = os.path.dirname(os.path.abspath(__file__))
CRATE = os.path.join(HERE, "..", "crates", "replay_verify")
SEED = 20250201
DRAWN_LISTS = 840
FEWEST_CASES = 3000
LARGEST_INPUT = 1_400_000
# what crates/replay_verify has room for
NODE_ROOM, POOL_ROOM, WORK_ROOM = 12300, 16400, 98400

NOT_ALIGNED, OVER_LIMIT, FAILS, LITTLE_WORK = 1, 2, 6, 10

# ---- recording a case

lines = {}


def asked(nodes, pool):
    """The work space that number 10 asks."""
    return model.WORK_PER_NODE * (len(nodes) // model.WORDS_PER_NODE) + model.WORK_PER_POOL * len(pool)


def case(nodes, pool, work=None):
    """Records a case and gives back its number and node; the work space is what is asked where none is said."""
    room = asked(nodes, pool) if work is None else work
    assert len(nodes) <= NODE_ROOM and len(pool) <= POOL_ROOM and room <= WORK_ROOM
    assert all(0 <= word <= LARGEST for word in nodes + pool)
    lent = list(range(1, room + 1))
    (number, node), left = model.verify(nodes, pool, lent)
    cleared = number not in (NOT_ALIGNED, OVER_LIMIT, LITTLE_WORK)
    assert left == ([0] * room if cleared else lent)
    lines[(len(nodes), len(pool), room, number, node, int(cleared), *nodes, *pool)] = None
    return number, node


def expect(number, node, built, work=None):
    """Records a case whose answer document 01 gives; node None stands for the last node."""
    nodes, pool = built.words() if isinstance(built, Lister) else built
    at = len(nodes) // 3 - 1 if node is None else node
    got = case(nodes, pool, work)
    assert got == (number, at), (got, (number, at), nodes[:60], pool[:60])


# ---- numbers 1, 2 and 10: sizes


def alignment():
    for words in (1, 2, 4, 5):
        expect(1, 0, of(*[0] * words))
        expect(1, 0, of(*[LARGEST] * words), work=0)
    expect(1, 0, of(0, 0, 0, 0, pool=[5, 7]))
    # over a limit at once: 1 before 2
    for words in (1, 2):
        expect(1, 0, (blank_nodes(model.MOST_NODES, words), []))
        expect(1, 0, (blank_nodes(model.MOST_NODES + 1, words), []), work=0)
    expect(1, 0, ([0], [0] * (model.MOST_POOL + 1)))


def limits():
    expect(0, 0, (blank_nodes(model.MOST_NODES), []))
    expect(2, 0, (blank_nodes(model.MOST_NODES + 1), []))
    expect(0, 0, ([0] * 3, [0] * model.MOST_POOL))
    expect(2, 0, ([0] * 3, [0] * (model.MOST_POOL + 1)))
    # with too little work space: 2 before 10
    expect(2, 0, (blank_nodes(model.MOST_NODES + 1), []), work=0)
    expect(2, 0, ([], [0] * (model.MOST_POOL + 1)), work=0)
    # with a bad kind: 2 before 3
    expect(2, 0, ([99] * 3, [0] * (model.MOST_POOL + 1)))


def one_word_short(built):
    """Sound with what is asked and with more; refused with a word less, with half and with none."""
    nodes, pool = built.words() if isinstance(built, Lister) else built
    enough = asked(nodes, pool)
    for room in (enough, enough + 1, enough + 7):
        expect(0, 0, (nodes, pool), work=room)
    for room in sorted({enough - 1, enough // 2, 0}):
        expect(10, 0, (nodes, pool), work=room)


def work_space():
    one_word_short(of(3, 7, 0))
    one_word_short(of(3, 7, 0, pool=[1, 2, 3]))
    one_word_short(of(pool=[4]))
    both = Lister()
    both.add("And", both.var(0), both.var(1))
    one_word_short(both)
    expect(10, 0, (blank_nodes(model.MOST_NODES), []), work=16 * model.MOST_NODES - 1)
    expect(10, 0, ([0] * 3, [0] * model.MOST_POOL), work=16 + 2 * model.MOST_POOL - 1)
    # the empty list asks nothing, and verifies
    for room in (0, 1, 5):
        expect(0, 0, of(), work=room)
    # a bad kind, layout, child or Lut: 10 before 3 to 6
    for bad in (of(17, 0, 0), of(0, 2, 0), of(8, 0, 1, pool=[0]), of(9, 0, 0)):
        expect(10, 0, bad, work=asked(*bad) - 1)
        expect(10, 0, bad, work=0)


# ---- number 3


def unknown_kinds():
    for kind in (17, 18, 255, 256, 2 ** 16, 2 ** 31, LARGEST):
        expect(3, 0, of(kind, 0, 0))
        expect(3, 0, of(kind, LARGEST, LARGEST))
        expect(3, 1, of(3, 0, 0, kind, 0, 1, pool=[0]))
        expect(3, 1, of(3, 0, 0, kind, 0, 0, 3, 1, 0))
        expect(3, 0, of(kind, 0, 0, kind, 0, 0))
    expect(0, 0, of(3, 0, 0, KIND["Cycle"], 0, 1, pool=[0]))


# ---- number 4


def leaf_fields():
    const = ((0, 0, 0), (1, 0, 0), (2, 0, 4), (LARGEST, 0, 4), (0, 1, 4), (1, 1, 4), (0, LARGEST, 4))
    for first, count, number in const:
        expect(number, 0, of(KIND["Const"], first, count, pool=[0, 0]))
    for first, count, number in ((0, 0, 0), (255, 0, 0), (256, 0, 4), (LARGEST, 0, 4), (255, 1, 4), (0, LARGEST, 4)):
        expect(number, 0, of(KIND["Var"], first, count, pool=[0, 0]))
    for first, count, number in ((0, 0, 0), (1, 0, 4), (0, 1, 4), (1, 1, 4), (LARGEST, 0, 4), (0, LARGEST, 4)):
        expect(number, 0, of(KIND["DC"], first, count, pool=[0, 0]))
    for first, count in ((0, 0), (1, 1), (LARGEST, 0), (0, LARGEST), (LARGEST, LARGEST)):
        expect(0, 0, of(KIND["Program"], first, count))


def inner_node(name, first, count, entries):
    """Node 2 of this kind, where nodes 0 and 1 are a Program and a variable, over a pool of so many entries.

    A Lut and an Arg have the Program as each child, so that they verify but for their number of children."""
    child = 0 if name in ("Lut", "Arg") else 1
    return of(KIND["Program"], 0, 0, KIND["Var"], 3, 0, KIND[name], first, count, pool=[child] * entries)


def child_counts():
    for name, right in CHILDREN.items():
        for count in sorted({0, right - 1, right + 1, 5, 64, LARGEST}):
            expect(4, 2, inner_node(name, 0, count, 70))
        expect(FAILS if name == "Arg" else 0, 2 if name == "Arg" else 0, inner_node(name, 0, right, 70))
    for count, number in ((0, 0), (1, 0), (63, 0), (64, 0), (65, 4), (66, 4), (LARGEST, 4)):
        expect(number, 2 if number else 0, inner_node("Bus", 0, count, 70))
    for count, number in ((0, 6), (1, 0), (7, 0), (8, 6), (64, 6), (65, 6), (70, 6), (71, 4)):
        expect(number, 2 if number else 0, inner_node("Lut", 0, count, 70))


def pool_ends():
    """first + count against the pool's length, for each kind that has children."""
    for name in INNER:
        count = CHILDREN.get(name, 2)
        right = (FAILS, 2) if name == "Arg" else (0, 0)
        for entries in (count, count + 1, 40):
            expect(*right, inner_node(name, entries - count, count, entries))
            expect(4, 2, inner_node(name, entries - count + 1, count, entries))
            expect(4, 2, inner_node(name, entries, count, entries))
        # the sum is of numbers and does not wrap at 32 bits
        for first in sorted({HALF - count - 1, HALF - count, min(HALF - count + 1, LARGEST), LARGEST}):
            expect(4, 2, inner_node(name, first, count, 40))
    for name in ("Lut", "Bus"):
        for first, count in ((LARGEST, 1), (1, LARGEST), (LARGEST, LARGEST), (HALF - 64, 64), (HALF // 2, HALF // 2)):
            expect(4, 2, inner_node(name, first, count, 40))
    # a childless node is bound by the pool's length too
    for entries in (0, 1, 5):
        expect(0, 0, inner_node("Bus", entries, 0, entries))
        expect(6, 2, inner_node("Lut", entries, 0, entries))
        for first in (entries + 1, 2 ** 31, LARGEST):
            expect(4, 2, inner_node("Bus", first, 0, entries))
            expect(4, 2, inner_node("Lut", first, 0, entries))


# ---- number 5, and the order of 3, 4 and 5


def misplaced_children():
    for name in INNER:
        count = CHILDREN.get(name, 2)
        for place in range(count):
            for child in (2, 3, 4, 4096, 2 ** 31, LARGEST):
                nodes, pool = inner_node(name, 1, count, count + 2)
                pool[1 + place] = child
                expect(5, 2, (nodes, pool))
                if child in (2, 3):
                    expect(5, 2, (nodes + [3, 0, 0, 3, 0, 0], pool))
        # an entry of the pool that is no node's child is any
        nodes, pool = inner_node(name, 1, count, count + 2)
        pool[0] = pool[-1] = LARGEST
        expect(FAILS if name == "Arg" else 0, 2 if name == "Arg" else 0, (nodes, pool))
    expect(5, 0, of(KIND["Not"], 0, 1, pool=[0]))
    wide = Lister()
    wide.add("Bus", *[wide.var()] * 63, 1)
    expect(5, 1, wide)


def two_layout_faults():
    # 4 and 5 at one node: 4
    expect(4, 2, of(3, 0, 0, 3, 0, 0, KIND["And"], 0, 1, pool=[2]))
    expect(4, 2, of(3, 0, 0, 3, 0, 0, KIND["And"], 0, 3, pool=[2, 3, 4]))
    expect(4, 0, of(KIND["Not"], 0, 1))
    # at two nodes: the lower node, whatever the numbers are
    faults = {3: [17, 0, 1], 4: [KIND["And"], 0, 1], 5: [KIND["Not"], 0, 1]}
    for low, low_words in faults.items():
        for high, high_words in faults.items():
            expect(low, 1, of(3, 0, 0, *low_words, 3, 1, 0, *high_words, pool=[3]))
            expect(low, 0, of(*low_words, *high_words, pool=[3]))
            expect(low, 0, of(*low_words, *high_words, 3, 0, 0, pool=[LARGEST]))
    # layout before verification, also where the Lut stands lower or is no node's child
    for number, words in faults.items():
        expect(number, 1, of(9, 0, 0, *words, pool=[2]))
        expect(number, 0, of(*words, 9, 0, 0, pool=[2]))
        # layout faults count in nodes that the root does not reach
        expect(number, 0, of(*words, 3, 0, 0, pool=[2]))


# ---- number 6: Luts


def lut_sizes():
    for children in range(10):
        lut = Lister()
        program = lut.program(1)
        lut.add("Lut", *([program] + [lut.var(v) for v in range(children - 1)])[:children])
        number = 0 if 1 <= children <= 7 else FAILS
        expect(number, None if number else 0, lut)
    # the first child is no Program
    for name in KINDS:
        if name != "Program":
            for more in range(3):
                lut = Lister()
                var, program = lut.var(9), lut.program(0)
                cycled = lut.add("Cycle", lut.any("Arg")) if name == "Arg" else lut.any(name)
                lut.add("Lut", cycled, *[var, program][:more])
                expect(FAILS, None, lut)
    # further Programs are no fault here
    lut = Lister()
    program, large = lut.program(3), lut.program(2 ** 64 - 1)
    lut.add("Lut", program, large, program)
    expect(0, 0, lut)


def lut_of(k, value):
    lut = Lister()
    operand = lut.var(1)
    lut.add("Lut", lut.program(value), *[operand] * k)
    return lut


def lut_programs():
    for k in range(6):
        bound = 2 ** 2 ** k
        for value in sorted({0, 1, bound // 2, bound - 1}):
            expect(0, 0, lut_of(k, value))
        over = {bound, bound + 1, 2 * bound, HALF - 1 if k < 5 else HALF, HALF, HALF * 7 + 1, 2 ** 63, 2 ** 64 - 1}
        for value in sorted(over):
            expect(FAILS, 2, lut_of(k, value))
    for value in (0, 1, HALF - 1, HALF, 2 ** 63, 2 ** 64 - 1):
        expect(0, 0, lut_of(6, value))
        expect(FAILS, 2, lut_of(7, value))
        expect(FAILS, 2, lut_of(8, value))


# ---- number 6: Programs and Buses where they may not stand


def program_places():
    for name in INNER:
        if name in ("Lut", "Arg"):
            continue
        count = CHILDREN.get(name, 3)
        number = FAILS if name in ("And", "Xor", "Nor", "Bus") else 0
        for places in [{place} for place in range(count)] + [set(range(count))]:
            parent = Lister()
            program, var = parent.program(5), parent.var(5)
            parent.add(name, *[program if place in places else var for place in range(count)])
            expect(number, None if number else 0, parent)


def bus_members():
    for name in KINDS:
        number = FAILS if name in ("Program", "Bus") else 0
        for place in range(3):
            parent = Lister()
            var = parent.var(5)
            member = parent.add("Cycle", parent.any("Arg")) if name == "Arg" else parent.any(name)
            parent.add("Bus", *[member if at == place else var for at in range(3)])
            expect(number, None if number else 0, parent)
    for odd in ("Program", "Bus"):
        parent = Lister()
        var, member = parent.var(5), parent.any(odd)
        top = parent.add("Bus", *[var] * 63, member)
        expect(FAILS, top, parent)
    # a Bus under anything but a Bus is no fault here, and an empty Bus is a Bus
    for name in INNER:
        if name not in ("Bus", "Arg"):
            parent = Lister()
            parent.over(name, parent.add("Bus"))
            expect(0, 0, parent)
    parent = Lister()
    parent.add("Bus", parent.add("Bus"))
    expect(FAILS, 1, parent)
    # what stands between hides the Bus and the Program
    for name in ("Not", "Cycle"):
        for odd in ("Program", "Bus"):
            parent = Lister()
            parent.add("Bus", parent.add(name, parent.any(odd)))
            expect(0, 0, parent)


# ---- number 6: Args


def arg_under(index, cycles):
    arg = Lister()
    top = arg.add("Arg", arg.program(index))
    for _ in range(cycles):
        top = arg.add("Cycle", top)
    return arg


def arg_indices():
    for cycles in range(5):
        for index in [0, 1, 2, 3, 4, 5, HALF - 1, HALF, HALF + 1, 2 ** 63, 2 ** 64 - 1]:
            number = 0 if index < cycles else FAILS
            expect(number, 1 if number else 0, arg_under(index, cycles))
    # Cycles below the Arg, or that are no ancestors of it, do not count
    beside = Lister()
    arg = beside.add("Arg", beside.program(0))
    beside.add("And", arg, beside.add("Cycle", beside.var()))
    expect(FAILS, 1, beside)
    # other nodes on the way do not count, and do not hide the Cycle
    for name in INNER:
        if name not in ("Arg", "Cycle"):
            for cycles_below in range(2):
                way = Lister()
                top = way.add("Arg", way.program(cycles_below))
                for _ in range(cycles_below):
                    top = way.add("Cycle", top)
                top = way.over(name, top)
                expect(FAILS, 1, way)
                way.add("Cycle", top)
                expect(0, 0, way)


def arg_children():
    for name in KINDS:
        if name != "Program":
            wrong = Lister()
            arg = wrong.add("Arg", wrong.any(name))
            top = wrong.add("Cycle", wrong.add("Cycle", arg))
            inner_arg = name == "Arg"
            assert top == len(wrong.nodes) // 3 - 1
            expect(FAILS, arg, wrong)
            expect(FAILS, arg - 1 if inner_arg else arg, (wrong.nodes[:3 * arg + 3], wrong.pool))


def arg_reached_both_ways():
    for turned in (False, True):
        for name in ("And", "Mux", "Bus", "Fdre"):
            both = Lister()
            arg = both.add("Arg", both.program(0))
            ways = [both.add("Cycle", arg), arg]
            if turned:
                ways.reverse()
            count = CHILDREN.get(name, 2)
            top = both.add(name, *(ways + ways)[:count])
            expect(FAILS, 1, both)
            both.add("Cycle", top)
            expect(0, 0, both)


def arg_least_of_paths():
    """Paths with different numbers of Cycles: the least counts, wherever it stands among the children."""
    for index in range(4):
        for first in range(4):
            for second in range(4):
                paths = Lister()
                chain = [paths.add("Arg", paths.program(index))]
                for _ in range(3):
                    chain.append(paths.add("Cycle", chain[-1]))
                paths.add("And", chain[first], chain[second])
                number = 0 if index < min(first, second) else FAILS
                expect(number, 1 if number else 0, paths)
    # a long way without Cycles beside a short one with them
    for long_way_first in (False, True):
        paths = Lister()
        arg = paths.add("Arg", paths.program(1))
        short = paths.add("Cycle", paths.add("Cycle", arg))
        way = paths.add("Cycle", arg)
        for _ in range(9):
            way = paths.add("Not", way)
        paths.add("Xor", *((way, short) if long_way_first else (short, way)))
        expect(FAILS, 1, paths)


# ---- reachability: which faulty nodes count


def faulty_nodes():
    """A maker of a faulty node of every sort."""
    def lut(children):
        return lambda to: to.add("Lut", *[to.program(0)] * children)

    return {
        "Lut without children": lut(0),
        "Lut of seven operands": lut(8),
        "Lut over no Program": lambda to: to.add("Lut", to.var()),
        "Lut of a large program": lambda to: to.add("Lut", to.program(16), to.var(), to.var()),
        "And over a Program": lambda to: to.add("And", to.var(), to.program(0)),
        "Xor over a Program": lambda to: to.add("Xor", to.program(0), to.var()),
        "Nor over a Program": lambda to: to.add("Nor", to.program(0), to.var()),
        "Bus of a Program": lambda to: to.add("Bus", to.var(), to.program(0)),
        "Bus of a Bus": lambda to: to.add("Bus", to.add("Bus"), to.var()),
        "Arg over no Program": lambda to: to.add("Arg", to.var()),
        "Arg past its Cycles": lambda to: to.add("Arg", to.program(2)),
    }


def unreachable_faults():
    makers = faulty_nodes()
    for make in makers.values():
        # not reached: no fault; nor where a node above it, itself not reached, reaches it
        alone = Lister()
        fault = make(alone)
        expect(FAILS, fault, alone)
        alone.add("Not", fault)
        expect(FAILS, fault, alone)
        hidden = alone.var(3)
        expect(0, 0, alone)
        alone.add("Not", hidden)
        expect(0, 0, alone)
        alone.add("Cycle", fault)
        expect(FAILS, fault, alone)
    for first in makers.values():
        for second in makers.values():
            two = Lister()
            low = first(two)
            high = second(two)
            # the lowest of two that are reached, in both orders of the root's children
            reached = [two.add("Not", low), two.add("Not", high)]
            words = two.words()
            two.add("Mux", reached[0], reached[1], reached[0])
            expect(FAILS, low, two)
            # only the higher is reached, and then neither
            two = Lister()
            two.nodes, two.pool = words
            two.add("Not", reached[1])
            expect(FAILS, high, two)
            two.var(1)
            expect(0, 0, two)


def program_at_the_root():
    for value in (0, 1, HALF, 2 ** 64 - 1):
        root = Lister()
        root.program(value)
        expect(0, 0, root)
        root.var(0)
        root.program(value)
        expect(0, 0, root)
    for name in KINDS:
        root = Lister()
        number = FAILS if name == "Arg" else 0
        root.any(name)
        expect(number, None if number else 0, root)


# ---- lists at the limits


def shared_to_the_limit():
    """4,096 nodes, each an And of the one below twice."""
    deep = Lister()
    below = deep.var()
    for _ in range(model.MOST_NODES - 1):
        below = deep.add("And", below, below)
    expect(0, 0, deep)
    # the last node reached is a Program
    nodes, pool = deep.words()
    expect(FAILS, 1, ([KIND["Program"]] + nodes[1:], pool))


def deep_to_the_limit():
    """4,096 nodes one below the other and 16,384 pool entries: Nots whose child is the last of their four entries."""
    deep = Lister()
    deep.var()
    deep.pool = [0] * 4
    for node in range(1, model.MOST_NODES):
        deep.pool += [0] * 3 + [node - 1]
        deep.raw(KIND["Not"], len(deep.pool) - 1, 1)
    assert len(deep.pool) == model.MOST_POOL
    expect(0, 0, deep)


def cycles_to_the_limit():
    """An Arg under 4,094 Cycles: the largest index that verifies, and one more."""
    most = model.MOST_NODES - 2
    expect(0, 0, arg_under(most - 1, most))
    expect(FAILS, 1, arg_under(most, most))


def wide_to_the_limit():
    """63 Buses of 64 over leaves and Luts of seven, then Luts over all of them, to 4,096 nodes."""
    wide = Lister()
    program = wide.program(2 ** 64 - 1)
    leaves = [wide.var(v % 256) for v in range(1500)]
    buses = [wide.add("Bus", *[leaves[(64 * b + m) % 1500] for m in range(64)]) for b in range(63)]
    tops = [wide.add("Fdre", *[buses[(b + m) % 63] for m in range(4)]) for b in range(63)]
    last = tops[-1]
    while len(wide.nodes) < 3 * (model.MOST_NODES - 1):
        n = len(wide.nodes) // 3
        last = wide.add("Lut", program, last, tops[n % 63]) if n % 2 else wide.add("Xor", last, tops[n % 63])
    wide.add("Bus", last, *tops)
    nodes, pool = wide.words()
    assert len(nodes) == 3 * model.MOST_NODES
    # the Lut's program has 64 digits and there are two operands
    expect(FAILS, lowest_lut(nodes), (nodes, pool))
    nodes[1:3] = [15, 0]
    expect(0, 0, (nodes, pool))


def lowest_lut(nodes):
    return min(at // 3 for at in range(0, len(nodes), 3) if nodes[at] == KIND["Lut"])


# ---- drawn lists and their damaged copies


def drawn_cases(rng):
    for at in range(DRAWN_LISTS):
        nodes, pool = drawn_list(rng)
        number, _ = case(nodes, pool, asked(nodes, pool) + rng.choice([0, 0, 1, 9]))
        assert number == 0, (nodes, pool)
        case(*word_changed(rng, nodes, pool))
        case(*word_changed(rng, *word_changed(rng, nodes, pool)))
        if at % 3 == 0:
            case(*word_dropped(rng, nodes, pool))
        if at % 9 == 0:
            case(nodes, pool, asked(nodes, pool) - 1)


# ---- the original's


def from_the_original():
    for (words, entries, *rest), answer in original.cases("verify"):
        number, _ = case(*original.parts(rest, words, entries))
        original.agreed("verify", (int(number == 0),), answer)


# ---- the whole


def by_hand():
    alignment()
    limits()
    work_space()
    unknown_kinds()
    leaf_fields()
    child_counts()
    pool_ends()
    misplaced_children()
    two_layout_faults()
    lut_sizes()
    lut_programs()
    program_places()
    bus_members()
    arg_indices()
    arg_children()
    arg_reached_both_ways()
    arg_least_of_paths()
    unreachable_faults()
    program_at_the_root()
    shared_to_the_limit()
    deep_to_the_limit()
    cycles_to_the_limit()
    wide_to_the_limit()


def tally(by_hand_count, drawn_count):
    """How many cases there are of each number; each number is there often enough."""
    numbers = Counter(line[3] for line in lines)
    more = len(lines) - by_hand_count - drawn_count
    print(f"{by_hand_count} by hand, {drawn_count} drawn, {more} more of the original's", file=sys.stderr)
    print(", ".join(f"number {number}: {numbers[number]}" for number in sorted(numbers)), file=sys.stderr)
    assert set(numbers) == {0, 1, 2, 3, 4, 5, 6, 10}
    assert len(lines) >= FEWEST_CASES


def write(name, text):
    with open(os.path.join(CRATE, name), "w", encoding="ascii", newline="\n") as out:
        out.write(text)


def main():
    # the model follows a list of 4,096 nodes one below the other by as many calls
    sys.setrecursionlimit(20000)
    by_hand()
    by_hand_count = len(lines)
    drawn_cases(random.Random(SEED))
    drawn_count = len(lines) - by_hand_count
    from_the_original()
    tally(by_hand_count, drawn_count)
    text = "".join(" ".join(map(str, line)) + "\n" for line in lines)
    assert len(text) <= LARGEST_INPUT, len(text)
    print(f"{len(text)} bytes", file=sys.stderr)
    write("stdin", text)
    write("stdout", f"{len(lines)} cases, 0 differ\n")


if __name__ == "__main__":
    main()
