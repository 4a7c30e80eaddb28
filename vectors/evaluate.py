"""Cases of the evaluator, with their answers (document 01, "Answers of a node" and "Numbers a call answers with").

usage: python3 vectors/evaluate.py      writes crates/replay_evaluate/stdin and stdout

How the cases are made: lists for every kind, failure, width and boundary are written out by hand below, each with the
answer that document 01 gives it; then evaluable lists of up to 25 nodes are drawn, with bytes among 0, 1 and 2, and
some are given too in damaged copies. Every answer, every pair and whether the work space is cleared is what
vectors/model.py computes; an answer that is written out here must be the model's. The last cases are the original
Rust's: vectors/oracle/evaluate.txt has them with the state, width and value of each node (oracle/sample), which must be
the model's too, or this stops.

A case is one line of decimal words, as crates/replay_evaluate/src/cases.rt says:
  node_words pool_entries byte_count work_words out_words  number node state width value cleared
  node words..  pool entries..  bytes..  and, where the number is 0, a pair for each node
What is lent before the call, for work and for output, holds 2^63, 2^63 + 1, ..: no 0, no state and no two words alike,
and no pair below has such a word where it is written (`case` sees to that). So a word that is cleared, written or left
alone is told from the others. The same cases come out at each run, byte for byte: the drawn ones are from a fixed seed.
"""
import itertools
import os
import random
import sys
from collections import Counter

import model
import original
from lister import KIND, LARGEST, Lister, drawn_list, evaluable_list, of, word_changed, word_dropped
from model import HALF, KINDS
from networks import (ARG, DONT_CARE, FAILURES, LETTERS, REGISTER, STATES, UNDRIVEN, Network, failure_of, unevaluable,
                      unverified)

HERE = os.path.dirname(os.path.abspath(__file__))
CRATE = os.path.join(HERE, "..", "crates", "replay_evaluate")
SEED = 20250301
EVALUABLE_LISTS = 2500
VERIFIED_LISTS = 300
FEWEST_CASES = 5000
LARGEST_INPUT = 1_800_000
# what crates/replay_evaluate has room for
NODE_ROOM, POOL_ROOM, BYTE_ROOM, WORK_ROOM, OUT_ROOM = 12300, 16400, 300, 98400, 8300
BEFORE = 2 ** 63

NOT_ALIGNED, OVER_LIMIT, FAILS, NO_ROOT, NOT_EVALUABLE, LITTLE_WORK, BAD_BYTES, SHORT_OUTPUT = 1, 2, 6, 7, 8, 10, 12, 19
WIDTHS = (0, 1, 2, 63, 64)
ONES = 2 ** 64 - 1

# ---- recording a case

lines = {}


def kept(function):
    """The function, with its answer for each tree kept until `forget`: a tree reached twice is answered once."""
    answers = {}

    def once(tree, *more):
        if id(tree) not in answers:
            answers[id(tree)] = function(tree, *more)
        return answers[id(tree)]

    once.forget = answers.clear
    return once


# the model follows every path; of a list in which nodes are shared there may be too many
model.answer = kept(model.answer)
model.shape = kept(model.shape)


def asked(nodes, pool):
    """The work space that number 10 asks."""
    return model.WORK_PER_NODE * (len(nodes) // model.WORDS_PER_NODE) + model.WORK_PER_POOL * len(pool)


def pair_words(nodes):
    return 2 * (len(nodes) // model.WORDS_PER_NODE)


def lent(count):
    return [BEFORE + place for place in range(count)]


def case(nodes, pool, given=(), work=None, out=None):
    """Records a case and gives back its answer words and pairs; what is lent is just enough where nothing is said."""
    room = asked(nodes, pool) if work is None else work
    places = pair_words(nodes) if out is None else out
    assert len(nodes) <= NODE_ROOM and len(pool) <= POOL_ROOM and len(given) <= BYTE_ROOM
    assert room <= WORK_ROOM and places <= OUT_ROOM
    assert all(0 <= word <= LARGEST for word in nodes + pool) and all(0 <= byte <= 255 for byte in given)
    model.answer.forget()
    model.shape.forget()
    words, left, after = model.evaluate(nodes, pool, list(given), lent(room), lent(places))
    cleared = words[0] not in (NOT_ALIGNED, OVER_LIMIT, LITTLE_WORK)
    assert left == ([0] * room if cleared else lent(room))
    pairs = after[:pair_words(nodes)] if words[0] == 0 else []
    assert after == pairs + lent(places)[len(pairs):]
    assert all(word != BEFORE + place for place, word in enumerate(pairs))
    sizes = (len(nodes), len(pool), len(given), room, places)
    lines[(*sizes, *words, int(cleared), *nodes, *pool, *given, *pairs)] = None
    return tuple(words), pairs


def value(width, number):
    """The answer words of a root that has a value."""
    return (0, 0, 0, width, number)


def fails(failure):
    return (0, 0, failure, 0, 0)


def refused(number, node=0):
    return (number, node, 0, 0, 0)


def expect(answer, built, given=(), work=None, out=None, pairs=None):
    """Records a case whose answer, and whose pairs where they are said, document 01 gives."""
    nodes, pool = built.words() if isinstance(built, Lister) else built
    got, written = case(nodes, pool, given, work, out)
    assert got == answer, (got, answer, nodes[:60], pool[:60], given)
    assert pairs is None or written == list(itertools.chain(*pairs)), (written, pairs)


# ---- answers of bits and buses that are written as digits


def answer_of(state):
    """The answer of a bit written as 0, 1, u, d, r, a."""
    return value(1, int(state)) if state in "01" else fails(failure_of(state))


def number_of(digits):
    """The value of a bus: its last member is bit 0."""
    return int(digits or "0", 2)


def patterns(width, rng=None):
    """Digits of a bus: all zeros, all ones, both alternations, and one drawn."""
    found = ["0" * width, "1" * width, ("01" * width)[:width], ("10" * width)[:width]]
    if rng:
        found.append("".join(rng.choice("01") for _ in range(width)))
    return sorted(set(found))


# ---- every kind at the root


def leaves():
    for bit in (0, 1):
        expect(value(1, bit), of(KIND["Const"], bit, 0), pairs=[(0, bit)])
    expect(fails(DONT_CARE), of(KIND["DC"], 0, 0), pairs=[(2, 0)])
    for number in (0, 1, 7, 254, 255):
        var = of(KIND["Var"], number, 0)
        for bit in (0, 1):
            expect(value(1, bit), var, [2] * number + [bit], pairs=[(0, bit)])
            expect(value(1, bit), var, [1 - bit] * number + [bit] + [1 - bit] * (255 - number))
        expect(fails(UNDRIVEN), var, [1] * number + [2], pairs=[(1, 0)])
        # past the slice
        expect(fails(UNDRIVEN), var, [1] * number, pairs=[(1, 0)])
        expect(fails(UNDRIVEN), var)


def registers():
    """A register fails whatever its operands answer, be they bits or buses."""
    for name in ("Fdre", "Fdse", "Fdpe", "Fdce"):
        for operands in ("0000", "1111", "0110", "uuuu", "dddd", "rrrr", "aaaa", LETTERS, "01da"):
            net = Network()
            net.add(name, *[net.bit(state) for state in operands])
            expect(fails(REGISTER), net)
        for width in WIDTHS:
            net = Network()
            net.add(name, net.bus("1" * width), net.const(0), net.failing_bus(width, DONT_CARE), net.bus(""))
            expect(fails(REGISTER), net)


def cycles():
    """A Cycle answers as its child; an Arg fails whatever its index is."""
    for state in "01udra":
        net = Network()
        top = net.bit(state)
        for _ in range(4):
            top = net.add("Cycle", top)
            expect(answer_of(state), net)
    for depth in (1, 2, 3, 9):
        net = Network()
        net.arg(depth)
        expect(fails(ARG), net, pairs=[(5, 0)] + [(4, 0)] * (depth + 1))
    # at the root it does not verify
    expect(refused(FAILS, 1), of(KIND["Program"], 0, 0, KIND["Arg"], 0, 1, pool=[0]))
    # two Args of different indices under the same Cycles, and a 1 that absorbs one of them
    net = Network()
    inner = net.add("Arg", net.program(0))
    outer = net.add("Arg", net.program(1))
    net.add("Cycle", net.add("Cycle", net.add("And", inner, net.add("Nor", outer, net.const(1)))))
    expect(value(1, 0), net)
    for width in WIDTHS:
        for digits in patterns(width):
            net = Network()
            net.add("Cycle", net.bus(digits))
            expect(value(width, number_of(digits)), net)
        net = Network()
        net.add("Cycle", net.failing_bus(width, REGISTER))
        expect(fails(REGISTER), net)


# ---- And, Nor, Xor and Not, as bits

# a row for each first operand, a column for each second, both in the order of STATES
AND = {"0": "000000", "1": "01udra", "u": "0uuuuu", "d": "0ddddd", "r": "0rrrrr", "a": "0aaaaa"}
NOR = {"0": "10udra", "1": "000000", "u": "u0uuuu", "d": "d0dddd", "r": "r0rrrr", "a": "a0aaaa"}
XOR = {"0": "01udra", "1": "10udra", "u": "uuuuuu", "d": "dddddd", "r": "rrrrrr", "a": "aaaaaa"}
NOT = {"0": "1", "1": "0", "u": "u", "d": "d", "r": "r", "a": "a"}
GATES = {"And": AND, "Nor": NOR, "Xor": XOR}


def bit_gates():
    for name, rows in GATES.items():
        for first, row in rows.items():
            for second, state in zip(STATES, row):
                net = Network()
                a, b = net.bit(first), net.bit(second)
                net.add(name, a, b)
                expect(answer_of(state), net)
                # the same inside, where the whole is told by the pairs as well
                net.add("Not", len(net.nodes) // 3 - 1)
                expect(answer_of(NOT[state]), net)
        for state in STATES:
            net = Network()
            both = net.bit(state)
            net.add(name, both, both)
            expect(answer_of(rows[state][STATES.index(state)]), net)
    for state in STATES:
        net = Network()
        net.add("Not", net.bit(state))
        expect(answer_of(NOT[state]), net)


def driven_gates():
    """The same by variables: bytes 0, 1 and 2."""
    for name, rows in GATES.items():
        for first, second in itertools.product((0, 1, 2), repeat=2):
            net = Network()
            net.add(name, net.var(0), net.var(1))
            state = rows["01u"[first]][second]
            expect(answer_of(state), net, [first, second])
    # document 01's own examples
    net = Network()
    net.add("Bus", net.var(0), net.var(1))
    expect(value(2, 2), net, [1, 0], pairs=[(0, 1), (0, 0), (0, 2)])
    for name, first, second, answer in (("And", "0", "d", value(1, 0)), ("Nor", "d", "1", value(1, 0)),
                                        ("And", "1", "d", fails(DONT_CARE))):
        net = Network()
        net.add(name, net.bit(first), net.bit(second))
        expect(answer, net)


# ---- And, Nor, Xor and Not, as buses


def gate_digits(name, first, second):
    """Digit by digit, from the tables above."""
    return "".join(GATES[name][a][STATES.index(b)] for a, b in zip(first, second))


def bus_gates(rng):
    for width in WIDTHS:
        for name in GATES:
            for first, second in itertools.product(patterns(width, rng), repeat=2):
                net = Network()
                net.add(name, net.bus(first), net.bus(second))
                expect(value(width, number_of(gate_digits(name, first, second))), net)
        for digits in patterns(width, rng):
            net = Network()
            net.add("Not", net.bus(digits))
            turned = "".join(NOT[digit] for digit in digits)
            expect(value(width, number_of(turned)), net)


def absorbed(name, digits, failure):
    """A value beside one failure: And gives way to all zeros, Nor to all ones, Xor to nothing."""
    absorbs = {"And": "1" not in digits, "Nor": "0" not in digits, "Xor": False}[name]
    return value(len(digits), 0) if absorbs else fails(failure)


def failing_buses(rng):
    for width in WIDTHS:
        for name, failure in itertools.product(GATES, FAILURES):
            for digits in patterns(width, rng):
                for turned in (False, True):
                    net = Network()
                    operands = [net.bus(digits), net.failing_bus(width, failure)]
                    net.add(name, *(reversed(operands) if turned else operands))
                    expect(absorbed(name, digits, failure), net)
        for failure in FAILURES:
            net = Network()
            net.add("Not", net.failing_bus(width, failure))
            expect(fails(failure), net)
    # two failing buses: the first, under each of the three; here they fail by a member
    for name, first, second in itertools.product(GATES, LETTERS, LETTERS):
        net = Network()
        net.add(name, net.bus("1" + first), net.bus(second + "0"))
        expect(answer_of(first), net)
    # a bus of two with a failing member is no half value: zeros beside it absorb, a zero in it does not
    for failure in LETTERS:
        for other in ("00", "01", "10", "11"):
            for name in GATES:
                net = Network()
                net.add(name, net.bus("0" + failure), net.bus(other))
                expect(absorbed(name, other, failure_of(failure)), net)


def other_bus_gates():
    """One bit in a bus, at each place of the widest: it goes to the right place and no other."""
    for place in range(64):
        digits = "0" * (63 - place) + "1" + "0" * place
        net = Network()
        net.bus(digits)
        expect(value(64, 2 ** place), net)
        net.add("Not", len(net.nodes) // 3 - 1)
        expect(value(64, ONES - 2 ** place), net)
    # one operand twice
    for width in WIDTHS:
        for name in GATES:
            for digits in patterns(width):
                net = Network()
                both = net.bus(digits)
                net.add(name, both, both)
                expect(value(width, number_of(gate_digits(name, digits, digits))), net)


# ---- Luts


def lut_of(program, states):
    net = Network()
    operands = [net.bit(state) for state in states]
    net.add("Lut", net.program(program), *operands)
    return net


def row_of(states):
    """The first operand is the most significant bit of the row number."""
    return int(states or "0", 2)


def digit_of(program, row):
    return int(format(program, "064b")[63 - row])


def small_luts():
    """All programs and rows for k up to 2; for 3 and 4, programs of one row, of all rows but one, and odd ones."""
    for k in range(5):
        rows = 2 ** k
        every = range(2 ** rows) if k <= 2 else [2 ** row for row in range(rows)]
        odd = [] if k <= 2 else [0, 2 ** rows - 1, 2 ** (rows - 1), 202, 0x1E % 2 ** rows, 2 ** rows - 2]
        for program in sorted({*every, *odd}):
            for states in map("".join, itertools.product("01", repeat=k)):
                if k < 4 or program in odd or row_of(states) in (program.bit_length() - 1, program.bit_length()):
                    expect(value(1, digit_of(program, row_of(states))), lut_of(program, states))


def large_luts(rng):
    for k in (5, 6):
        top = 2 ** k - 1
        for row in [0, 1, 2, top // 2, top // 2 + 1, top - 1, top] + rng.sample(range(2 ** k), 12):
            states = format(row, "b").zfill(k)
            # this row alone, all but this row, and one that is drawn
            alone = 2 ** row
            for program in (alone, 2 ** 2 ** k - 1 - alone, rng.randrange(2 ** 2 ** k)):
                expect(value(1, digit_of(program, row)), lut_of(program, states))
        # the top bit, and what is beside it
        for program in (2 ** top, 2 ** top + 1, 2 ** (top - 1), 2 ** 2 ** k - 1):
            for row in (0, top - 1, top):
                expect(value(1, digit_of(program, row)), lut_of(program, format(row, "b").zfill(k)))


def operand_order(rng):
    """A program that answers as one operand does: each operand in turn is told from the others."""
    for k in range(1, 7):
        for place in range(k):
            program = sum(2 ** row for row in range(2 ** k) if format(row, "b").zfill(k)[place] == "1")
            for at in range(k):
                states = "".join("1" if other == at else "0" for other in range(k))
                expect(value(1, int(at == place)), lut_of(program, states))
            states = "".join(rng.choice("01") for _ in range(k))
            expect(value(1, int(states[place])), lut_of(program, states))


def failing_operands():
    for k in range(1, 7):
        for place, failure in itertools.product(range(k), LETTERS):
            states = "".join(failure if other == place else "01"[other % 2] for other in range(k))
            # the program is constant, and the failure counts all the same
            for program in (0, 2 ** 2 ** k - 1):
                expect(answer_of(failure), lut_of(program, states))
    for k in (2, 3, 6):
        for first, second in itertools.combinations(range(k), 2):
            for one, other in (("u", "d"), ("d", "u"), ("r", "a"), ("a", "r"), ("d", "a"), ("a", "u")):
                states = "".join({first: one, second: other}.get(place, "1") for place in range(k))
                expect(answer_of(one), lut_of(6, states))
    for program in (0, 1):
        expect(value(1, program), lut_of(program, ""))


# ---- Buses


def bus_failures():
    """The last failing member, at every pair of places."""
    for width in (1, 2, 3, 5):
        for places in itertools.combinations(range(width), 2):
            for one, other in itertools.permutations(LETTERS, 2):
                states = "".join(dict(zip(places, (one, other))).get(place, "01"[place % 2]) for place in range(width))
                net = Network()
                net.bus(states)
                expect(answer_of(other), net)
        for place, failure in itertools.product(range(width), LETTERS):
            net = Network()
            net.bus("1" * place + failure + "0" * (width - place - 1))
            expect(answer_of(failure), net)
    for first, last in ((0, 63), (0, 1), (62, 63), (31, 32), (5, 60)):
        for one, other in (("u", "a"), ("a", "u"), ("d", "r"), ("r", "d")):
            net = Network()
            net.bus("".join({first: one, last: other}.get(place, "0") for place in range(64)))
            expect(answer_of(other), net)
    for states in (LETTERS, "ardu", "uuuu", "dar", "1d1r1"):
        net = Network()
        net.bus(states)
        expect(answer_of([state for state in states if state not in "01"][-1]), net)


def bus_values(rng):
    for width in list(range(6)) + [31, 32, 33, 63, 64]:
        for digits in patterns(width, rng):
            net = Network()
            net.bus(digits)
            expect(value(width, number_of(digits)), net)
    # by variables, a node for each member
    for width in (3, 32, 63, 64):
        for _ in range(3):
            bits = [rng.randint(0, 1) for _ in range(width)]
            net = Network()
            net.add("Bus", *[net.var(number) for number in range(width)])
            expect(value(width, number_of("".join(map(str, bits)))), net, bits)
    # one node as several members
    net = Network()
    a, b = net.var(0), net.var(1)
    net.add("Bus", a, b, b, a)
    expect(value(4, 9), net, [1, 0], pairs=[(0, 1), (0, 0), (0, 9)])


# ---- Mux


def mux_answer(selector, a, b):
    if selector not in "01":
        return answer_of(selector)
    return answer_of(a if selector == "1" else b)


def bit_muxes():
    for selector, a, b in itertools.product(STATES, repeat=3):
        net = Network()
        net.add("Mux", net.bit(selector), net.bit(a), net.bit(b))
        expect(mux_answer(selector, a, b), net)
    for selector, a, b in itertools.product((0, 1, 2), repeat=3):
        net = Network()
        net.add("Mux", net.var(0), net.var(1), net.var(2))
        expect(mux_answer("01u"[selector], "01u"[a], "01u"[b]), net, [selector, a, b])


def bus_muxes(rng):
    for width in WIDTHS:
        found = patterns(width, rng)
        for a, b in zip(found, found[1:] + found[:1]):
            for selector in "01u":
                net = Network()
                net.add("Mux", net.bit(selector), net.bus(a), net.bus(b))
                chosen = a if selector == "1" else b
                expect(fails(UNDRIVEN) if selector == "u" else value(width, number_of(chosen)), net)
        # a failing arm, chosen and not
        for failure, selector, fails_first in itertools.product(FAILURES, "01", (False, True)):
            net = Network()
            arms = [net.failing_bus(width, failure), net.bus("1" * width)]
            net.add("Mux", net.bit(selector), *(arms if fails_first else arms[::-1]))
            is_chosen = (selector == "1") == fails_first
            expect(fails(failure) if is_chosen else value(width, number_of("1" * width)), net)


# ---- the assignment's bytes


def bytes_at_their_places():
    net = Network()
    net.add("Bus", *[net.var(number) for number in (0, 1, 2)])
    for given in itertools.product((0, 1, 2), repeat=3):
        failing = 2 in given
        expect(fails(UNDRIVEN) if failing else value(3, number_of("".join(map(str, given)))), net, given)
    var = of(KIND["Var"], 0, 0)
    for count in (1, 2, 3, 255, 256):
        for place in sorted({0, count // 2, count - 1}):
            for byte in (3, 4, 255):
                given = [1] * count
                given[place] = byte
                expect(refused(BAD_BYTES), var, given)
            for byte in (0, 1, 2):
                given = [1] * count
                given[place] = byte
                here = byte if place == 0 else 1
                expect(fails(UNDRIVEN) if here == 2 else value(1, here), var, given)
    # a byte that no variable reads is refused too
    expect(refused(BAD_BYTES), of(KIND["Const"], 1, 0), [3])
    expect(value(1, 1), of(KIND["Const"], 1, 0), [2])


def slice_lengths():
    for byte in (0, 1, 2):
        for number in (0, 1, 254, 255):
            for count in (0, 1, 2, 254, 255, 256):
                driven = number < count and byte != 2
                expect(value(1, byte) if driven else fails(UNDRIVEN), of(KIND["Var"], number, 0), [byte] * count)
        # more than 256 bytes, whatever they are
        for count in (257, 258, 300):
            expect(refused(BAD_BYTES), of(KIND["Var"], 0, 0), [byte] * count)
    expect(refused(BAD_BYTES), of(KIND["Var"], 0, 0), [3] * 257)
    expect(refused(BAD_BYTES), of(KIND["Var"], 0, 0), [0] * 256 + [3])


# ---- lent space


def small_networks():
    """A few lists of different sizes, each with its answer."""
    one = Network()
    one.const(1)
    gate = Network()
    gate.add("And", gate.var(0), gate.var(1))
    lut = lut_of(8, "11")
    wide = Network()
    wide.bus("10" * 32)
    undriven = Network()
    undriven.add("Not", undriven.var(9))
    return [(one, value(1, 1)), (gate, value(1, 0)), (lut, value(1, 1)), (wide, value(64, number_of("10" * 32))),
            (undriven, fails(UNDRIVEN))]


def output_lengths():
    for net, answer in small_networks():
        exact = pair_words(net.nodes)
        for places in (exact, exact + 1, exact + 2, exact + 7):
            expect(answer, net, [1, 0], out=places)
        for places in sorted({exact - 1, exact - 2, exact // 2, 1, 0}):
            expect(refused(SHORT_OUTPUT), net, [1, 0], out=places)


def work_lengths():
    for net, answer in small_networks():
        exact = asked(*net.words())
        for room in (exact, exact + 1, exact + 7):
            expect(answer, net, [1, 0], work=room)
        for room in sorted({exact - 1, exact // 2, 0}):
            expect(refused(LITTLE_WORK), net, [1, 0], work=room)
    # entries of the pool that no node has ask for work space too
    expect(value(1, 1), of(KIND["Const"], 1, 0, pool=[7, 8, 9]), work=22)
    expect(refused(LITTLE_WORK), of(KIND["Const"], 1, 0, pool=[7, 8, 9]), work=21)


# ---- numbers 1 to 8


def sizes():
    for words in (1, 2, 4, 5):
        expect(refused(NOT_ALIGNED), of(*[0] * words), work=100, out=20)
        expect(refused(NOT_ALIGNED), of(*[LARGEST] * words), work=0, out=0)
    many = [0] * (model.MOST_POOL + 1)
    # 1 before 2; 2 before 10 and before 7; 2 before 3
    expect(refused(NOT_ALIGNED), ([0], many))
    expect(refused(OVER_LIMIT), ([], many), work=0)
    expect(refused(OVER_LIMIT), ([99] * 3, many))
    expect(refused(OVER_LIMIT), ([0] * 3 * (model.MOST_NODES + 1), []), [3], work=7, out=0)
    expect(value(1, 0), ([0] * 3, many[1:]))
    # 7: an empty list, whatever is lent
    for places, room in ((0, 0), (1, 0), (7, 3)):
        for given in ([], [0], [2] * 256):
            expect(refused(NO_ROOT), of(), given, work=room, out=places)
    expect(refused(NO_ROOT), of(pool=[4]))
    expect(refused(LITTLE_WORK), of(pool=[4]), work=1)


def layout_faults():
    """Numbers 3, 4 and 5, also at nodes that the root does not reach; the lowest node wins."""
    faults = {3: [17, 0, 1], 4: [KIND["And"], 0, 1], 5: [KIND["Not"], 0, 1]}
    for number, words in faults.items():
        expect(refused(number, 0), of(*words, pool=[7]))
        expect(refused(number, 1), of(3, 0, 0, *words, pool=[1]))
        expect(refused(number, 0), of(*words, 3, 0, 0, pool=[2]))
        for other, more in faults.items():
            expect(refused(number, 0), of(*words, *more, pool=[3]))
            expect(refused(number, 1), of(3, 0, 0, *words, 3, 1, 0, *more, pool=[3]))
    # one node with two faults
    expect(refused(4, 2), of(3, 0, 0, 3, 0, 0, KIND["And"], 0, 1, pool=[2]))
    for kind in (17, 255, LARGEST):
        expect(refused(3, 0), of(kind, LARGEST, LARGEST))
    for first, count in ((2, 0), (0, 1), (LARGEST, 0)):
        expect(refused(4, 0), of(KIND["Const"], first, count))
    expect(refused(4, 0), of(KIND["Var"], 256, 0), [0] * 256)
    expect(refused(4, 0), of(KIND["DC"], 1, 0))


def faulty_lists():
    """Numbers 6 and 8: at the root, below it, and where the root does not reach."""
    for number, makers in ((FAILS, unverified()), (NOT_EVALUABLE, unevaluable())):
        for make in makers.values():
            net = Network()
            fault = make(net)
            expect(refused(number, fault), net)
            net.add("Fdre", *[fault] * 4)
            expect(refused(number, fault), net)
            root = net.const(1)
            expect(value(1, 1), net, pairs=[(5, 0)] * root + [(0, 1)])
            net.add("Mux", root, root, net.add("Not", fault))
            expect(refused(number, fault), net)
    for program in (0, 1, HALF, ONES):
        net = Network()
        net.program(program)
        expect(refused(NOT_EVALUABLE, 0), net)
        net.var()
        net.program(program)
        expect(refused(NOT_EVALUABLE, 2), net)
    # the lowest of two; and 6 before 8, also where the node of 8 is the lower
    bad, wrong = list(unevaluable().values()), list(unverified().values())
    for first, second in zip(bad, bad[3:] + bad[:3]):
        net = Network()
        low, high = first(net), second(net)
        net.add("Fdse", high, low, high, low)
        expect(refused(NOT_EVALUABLE, low), net)
    for first, second in itertools.product(bad[:8], wrong):
        net = Network()
        eight, six = first(net), second(net)
        net.add("Fdse", eight, six, eight, six)
        expect(refused(FAILS, six), net)


# ---- the order of the numbers


def lists_by_number():
    """A list for each number that a list alone can bring, and one that is sound."""
    found = {0: of(3, 0, 0), 1: of(3, 0, 0, 0), 3: of(17, 0, 0), 4: of(0, 2, 0), 5: of(KIND["Not"], 0, 1, pool=[0])}
    for number, make in ((6, unverified()["Bus of a Program"]), (8, unevaluable()["Not of a Program"])):
        net = Network()
        make(net)
        found[number] = net.words()
    # an entry of the pool, so that the work space can be too little
    found[7] = of(pool=[4])
    return found


def order():
    """Every list fault together with too little work space, bad bytes and too little output: 1 2 10 3 .. 8 12 19."""
    node = {3: 0, 4: 0, 5: 0, 6: 2, 8: 1}
    for number, (nodes, pool) in lists_by_number().items():
        for little_work, short in itertools.product((0, 1), (0, 1, 2)):
            for given in ([1], [3], [0] * 257, [1, 2, 255]):
                room = asked(nodes, pool) - little_work
                places = max(pair_words(nodes) - short, 0)
                is_short = short > 0 and places < pair_words(nodes)
                bad = max(given) > 2 or len(given) > 256
                found = [(number == 1, 1), (little_work, LITTLE_WORK), (number, number), (bad, BAD_BYTES),
                         (is_short, SHORT_OUTPUT)]
                first = next((each for holds, each in found if holds), 0)
                answer = refused(first, node.get(first, 0)) if first else value(1, 1)
                expect(answer, (nodes, pool), given, work=room, out=places)
    # layout before verification and evaluability, wherever the nodes stand
    for late in (of(9, 0, 0, 17, 0, 0), of(1, 0, 0, 8, 0, 1, 17, 0, 0, pool=[0])):
        expect(refused(3, len(late[0]) // 3 - 1), late)


# ---- which nodes have an answer


def reached_and_not():
    # a node below the root that it does not reach, and what only that one reaches
    net = Network()
    a, b = net.var(0), net.var(1)
    net.add("And", a, b)
    net.add("Not", b)
    expect(value(1, 1), net, [0, 0], pairs=[(5, 0), (0, 0), (5, 0), (0, 1)])
    # Programs, reached and not
    net = Network()
    net.program(9)
    net.add("Lut", net.program(2), net.const(1))
    expect(value(1, 1), net, pairs=[(5, 0), (5, 0), (0, 1), (0, 1)])
    # a node that is reached twice, one that is reached by a Lut and by an Arg
    net = Network()
    shared = net.add("Xor", net.var(0), net.var(1))
    net.add("And", shared, net.add("Not", shared))
    expect(value(1, 0), net, [1, 0], pairs=[(0, 1), (0, 0), (0, 1), (0, 0), (0, 0)])
    net = Network()
    program, var = net.program(0), net.const(1)
    arg = net.add("Arg", program)
    net.add("Cycle", net.add("Nor", net.add("Lut", program, var), arg))
    expect(fails(ARG), net, pairs=[(5, 0), (0, 1), (4, 0), (0, 0), (4, 0), (4, 0)])
    # an arm that is not looked at has its pair all the same, and so have a register's operands and absorbed ones
    net = Network()
    arm = net.add("Not", net.const(0))
    net.add("Mux", net.const(0), arm, net.const(1))
    expect(value(1, 1), net, pairs=[(0, 0), (0, 1), (0, 0), (0, 1), (0, 1)])
    net = Network()
    bus = net.bus("101")
    net.add("Fdce", bus, net.const(1), net.dc(), bus)
    expect(fails(REGISTER), net, pairs=[(0, 0), (0, 1), (0, 5), (0, 1), (2, 0), (3, 0)])
    # a list in which nothing but the last node is reached
    nodes = [KIND["Var"], 0, 0] * 40 + [KIND["Const"], 1, 0]
    expect(value(1, 1), (nodes, []), pairs=[(5, 0)] * 40 + [(0, 1)])


# ---- deep, shared and large lists


def chains():
    for length in (1, 2, 3, 64, 199, 200):
        for bit in (0, 1, 2):
            net = Network()
            top = net.var(0)
            for _ in range(length):
                top = net.add("Not", top)
            expect(fails(UNDRIVEN) if bit == 2 else value(1, (bit + length) % 2), net, [bit])
    for name, answer in (("And", 1), ("Nor", 1), ("Xor", 0)):
        # each node over the one below twice: as many paths as assignments of 200 variables
        net = Network()
        top = net.var(0)
        for _ in range(200):
            top = net.add(name, top, top)
        expect(value(1, answer), net, [1])
    # a chain of registers, of Cycles over an Arg, and of Muxes that choose the deep arm
    net = Network()
    top = net.const(1)
    for _ in range(50):
        top = net.add("Fdpe", top, top, top, top)
    expect(fails(REGISTER), net)
    net = Network()
    net.arg(180)
    expect(fails(ARG), net)
    net = Network()
    one = net.const(1)
    top = net.bus("0110")
    arm = net.failing_bus(4, DONT_CARE)
    for _ in range(120):
        top = net.add("Mux", one, top, arm)
    expect(value(4, 6), net)


def at_the_limit(rng):
    """4,096 nodes: a chain; and gates over random lower nodes, some of them not reached."""
    net = Network()
    top = net.var(0)
    for _ in range(model.MOST_NODES - 1):
        top = net.add("Not", top)
    expect(value(1, 0), net, [1])
    net = Network()
    for number in range(256):
        net.var(number)
    while len(net.nodes) < 3 * model.MOST_NODES:
        below = len(net.nodes) // 3
        net.add(rng.choice(["And", "Xor", "Nor"]), *[rng.randrange(max(below - 300, 0), below) for _ in range(2)])
    (number, *_), pairs = case(*net.words(), [rng.randint(0, 1) for _ in range(256)])
    assert number == 0 and len(pairs) == 2 * model.MOST_NODES and {0, 5} == set(pairs[::2])


# ---- drawn lists


def drawn_bytes(rng):
    """Bytes for the variables 0 to 5 of a drawn list, most often for all of them; one in nine is undriven."""
    return [rng.choice([0, 0, 0, 0, 1, 1, 1, 1, 2]) for _ in range(rng.choice([0, 3, 5, 6, 6, 6, 6, 7]))]


def damaged_cases(rng, at, nodes, pool, given):
    if at % 4 == 0:
        case(*word_changed(rng, nodes, pool), given)
    if at % 12 == 1:
        case(*word_dropped(rng, nodes, pool), given)
    if at % 25 == 2:
        case(nodes, pool, given, work=asked(nodes, pool) - 1)
    if at % 25 == 3:
        case(nodes, pool, given, out=rng.randrange(pair_words(nodes)))
    if at % 25 == 4:
        place = rng.randrange(len(given) + 1)
        case(nodes, pool, given[:place] + [rng.choice([3, 4, 128, 255])] + given[place:])


def drawn_cases(rng):
    for at in range(EVALUABLE_LISTS):
        nodes, pool = evaluable_list(rng)
        given = drawn_bytes(rng)
        (number, *_), _ = case(nodes, pool, given, asked(nodes, pool) + rng.choice([0, 0, 5]),
                               pair_words(nodes) + rng.choice([0, 0, 0, 1, 4]))
        assert number == 0, (nodes, pool)
        damaged_cases(rng, at, nodes, pool, given)
    # verified, and often not evaluable
    for _ in range(VERIFIED_LISTS):
        case(*drawn_list(rng), drawn_bytes(rng))


# ---- the original's


def from_the_original():
    for (words, entries, count, *rest), answer in original.cases("evaluate"):
        (number, _, *root), pairs = case(*original.parts(rest, words, entries, count))
        theirs = [word for at in range(0, len(answer), 3) for word in (answer[at], answer[at + 2])]
        original.agreed("evaluate", (number, *root, *pairs), (0, *answer[-3:], *theirs))


# ---- the whole


def by_hand(rng):
    leaves()
    registers()
    cycles()
    bit_gates()
    driven_gates()
    bus_gates(rng)
    failing_buses(rng)
    other_bus_gates()
    small_luts()
    large_luts(rng)
    operand_order(rng)
    failing_operands()
    bus_failures()
    bus_values(rng)
    bit_muxes()
    bus_muxes(rng)
    bytes_at_their_places()
    slice_lengths()
    output_lengths()
    work_lengths()
    sizes()
    layout_faults()
    faulty_lists()
    order()
    reached_and_not()
    chains()
    at_the_limit(rng)


def root_kind(line):
    """The name of the last node's kind, of a line of number 0."""
    return KINDS[line[11 + line[0] - model.WORDS_PER_NODE]]


def shown(title, counts):
    print(title + ": " + ", ".join(f"{key} {counts[key]}" for key in sorted(counts)), file=sys.stderr)


def tally(by_hand_count, drawn_count):
    """How many cases there are of each number, root state and width, and kind at the root; each is there."""
    numbers = Counter(line[5] for line in lines)
    done = [line for line in lines if line[5] == 0]
    states = Counter(line[7] for line in done)
    kinds = Counter(map(root_kind, done))
    widths = Counter(line[8] for line in done if line[7] == 0)
    more = len(lines) - by_hand_count - drawn_count
    print(f"{by_hand_count} by hand, {drawn_count} drawn, {more} more of the original's", file=sys.stderr)
    shown("numbers", numbers)
    shown("root states", states)
    shown("root kinds", kinds)
    shown("root widths", widths)
    assert set(numbers) == {0, 1, 2, 3, 4, 5, 6, 7, 8, 10, 12, 19}
    assert all(states[state] >= 100 for state in range(5))
    # a Program at the root is number 8, an Arg there is number 6
    assert set(kinds) == set(KINDS) - {"Program", "Arg"}
    assert set(WIDTHS) <= set(widths)
    assert len(lines) >= FEWEST_CASES


def write(name, text):
    with open(os.path.join(CRATE, name), "w", encoding="ascii", newline="\n") as out:
        out.write(text)


def main():
    # the model follows a list of 4,096 nodes one below the other by as many calls
    sys.setrecursionlimit(20000)
    rng = random.Random(SEED)
    by_hand(rng)
    by_hand_count = len(lines)
    drawn_cases(rng)
    drawn_count = len(lines) - by_hand_count
    from_the_original()
    tally(by_hand_count, drawn_count)
    text = "".join(" ".join(map(str, line)) + "\n" for line in lines)
    assert len(text) <= LARGEST_INPUT, len(text)
    print(f"{len(text)} bytes", file=sys.stderr)
    write("stdin", text)
    write("stdout", f"{len(lines)} cases, 0 differ\n")


if __name__ == "__main__":
    main()
