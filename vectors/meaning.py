"""Random cases of the five calls: what the definitions of crates/meaning compute, beside vectors/model.py.

usage: python3 vectors/meaning.py [COUNT [SEED]]      300 cases and seed 1 where none is given

Cases are drawn until each outcome in WANTED has its share: every number that the call can answer, and of the calls that
are done every failure, verdict and judgement. A list is a random tree written down children first, with shared and
with unreachable nodes, or such a list damaged, or nodes put together at random. The model computes each case's whole
outcome: answer, work space, outputs. The cases are then written as tables of equations in the form of
Claims/Cases/Outcomes.antt, added to a copy of the crate, and `rt check` must accept them. A table that is refused is
cut into its cases, and the first that differs is printed. Exit status: 0 all agree, 1 one differs, 2 no verdict.
"""
import itertools
import os
import random
import re
import shutil
import subprocess
import sys
import tempfile

import model
from model import KINDS

HERE = os.path.dirname(os.path.abspath(__file__))
CRATE = os.path.join(HERE, "..", "crates", "meaning")
LINES_PER_TABLE = 40
WORD = 2 ** 32
LENT = 7  # what every place of an output holds before the call; work space is lent as ones
LONG_RUN = 6  # from this length on, a run of one number is written as `replicate`
MOST_DRAWN = 9  # the nodes of a drawn tree, so that it is soon computed
TRIES = 20000
STEP_LIMIT = "stopped at the step limit"

KIND = {name: kind for kind, name in enumerate(KINDS)}

# ---- outcomes that are asked for, and how often

FIELDS = {
    "evaluate": (2, {0: "value", 1: "undriven", 2: "DC", 3: "register", 4: "ARG"}),
    "compare": (2, {0: "Equiv", 1: "NotEquiv", 2: "Inconclusive"}),
    "separate": (2, {0: "Separate", 1: "Crossing"}),
}
WANTED = {
    "verify": ["0"] * 5 + ["1", "2", "3", "4", "4", "5", "6", "6", "6", "6", "10"],
    "evaluate": ["0 value"] * 6 + ["0 undriven", "0 DC", "0 register", "0 ARG"]
    + ["1", "2", "3", "4", "5", "6", "7", "8", "8", "10", "12", "19"],
    "compare": ["0 Equiv"] * 4 + ["0 NotEquiv"] * 4 + ["0 Inconclusive"] * 3
    + ["1", "2", "3", "4", "5", "6", "7", "8", "9", "10"],
    "separate": ["0 Separate"] * 4 + ["0 Crossing"] * 5 + ["0 Crossing of failures"]
    + ["1", "2", "3", "4", "5", "6", "7", "8", "10", "11", "11"],
    "canonicalise": ["0"] * 9 + ["1", "2", "3", "4", "5", "6", "7", "8", "10", "14", "14", "19"],
}


def outcome_name(call, answer):
    if answer[0] != 0 or call not in FIELDS:
        return str(answer[0])
    field, names = FIELDS[call]
    name = "0 " + names[answer[field]]
    return name + " of failures" if call == "separate" and answer[4] != 0 and answer[7] != 0 else name


# ---- drawing a list


class Drawing:
    """Nodes put down one after another, children first: of each its kind, fields, shape and the Cycles it needs."""

    def __init__(self, rng):
        self.rng = rng
        self.kinds = []
        self.fields = []
        self.children = []
        self.shapes = []
        self.needs = []
        self.left = rng.randint(1, 6)  # how many more nodes may be inner ones
        self.variables = rng.choice([[0, 1], [0, 1, 2], [0, 1, 2], [1, 3], [0, 2, 255], [0]])

    def add(self, name, fields, children, shape):
        self.kinds.append(KIND[name])
        self.fields.append(fields)
        self.children.append(children)
        self.shapes.append(shape)
        need = max([self.needs[child] for child in children], default=0)
        if name == "Cycle":
            need = max(need - 1, 0)
        if name == "Arg" and self.kinds[children[0]] == KIND["Program"]:
            need = self.program_value(children[0]) + 1
        self.needs.append(need)
        return len(self.kinds) - 1

    def program_value(self, i):
        return self.fields[i][0] + WORD * self.fields[i][1]

    def program(self, value):
        for i, kind in enumerate(self.kinds):
            if kind == KIND["Program"] and self.program_value(i) == value and self.rng.random() < 0.5:
                return i
        return self.add("Program", (value % WORD, value // WORD), [], None)

    def bits(self, count, cycles):
        return [self.draw(model.BIT, cycles) for _ in range(count)]

    def draw(self, shape, cycles):
        """The number of a node of this shape, below so many Cycles."""
        rng = self.rng
        old = [i for i, s in enumerate(self.shapes) if s == shape and self.needs[i] <= cycles]
        if old and rng.random() < (0.3 if self.left > 0 else 0.6):
            return rng.choice(old)
        self.left -= 1
        if shape == model.BIT:
            return self.draw_bit(cycles)
        name = "Bus" if self.left <= 0 else rng.choice(["Bus", "Bus", "And", "Nor", "Xor", "Not", "Mux", "Cycle"])
        if name == "Bus":
            return self.add("Bus", None, self.bits(shape[1], cycles), shape)
        return self.gate(name, shape, cycles)

    def gate(self, name, shape, cycles):
        if name == "Cycle":
            return self.add("Cycle", None, [self.draw(shape, cycles + 1)], shape)
        children = self.bits(1, cycles) if name == "Mux" else []
        arms = 1 if name == "Not" else 2
        children += [self.draw(shape, cycles) for _ in range(arms)]
        return self.add(name, None, children, shape)

    def draw_bit(self, cycles):
        rng = self.rng
        names = ["Var"] * 6 + ["Const"] * 2 + ["DC"]
        if self.left > 0:
            names = ["Var"] * 3 + ["Const", "DC", "And", "And", "Nor", "Nor", "Xor", "Not", "Mux", "Mux", "Lut", "Lut",
                                   "Lut", "Lut", "Cycle", "Fdre", "Fdse", "Fdpe", "Fdce"]
        if cycles > 0:
            names += ["Arg"] * 3
        name = rng.choice(names)
        if name == "Var":
            return self.add("Var", (rng.choice(self.variables), 0), [], model.BIT)
        if name == "Const":
            return self.add("Const", (rng.randint(0, 1), 0), [], model.BIT)
        if name == "DC":
            return self.add("DC", (0, 0), [], model.BIT)
        if name == "Arg":
            return self.add("Arg", None, [self.program(rng.randrange(cycles))], model.BIT)
        if name == "Lut":
            k = rng.choice([0, 1, 1, 2, 2, 2, 3, 3, 4, 6])
            value = rng.randrange(2 ** 2 ** k)
            operands = self.bits(k, cycles)
            return self.add("Lut", None, [self.program(value)] + operands, model.BIT)
        if name in model.REGISTERS:
            shapes = [rng.choice([model.BIT, model.BIT, model.BIT, model.bus(1)]) for _ in range(4)]
            return self.add(name, None, [self.draw(shape, cycles) for shape in shapes], model.BIT)
        return self.gate(name, model.BIT, cycles)

    def leaf(self):
        """A value or a failure of any sort."""
        name = self.rng.choice(["Const", "DC", "Var", "Var", "Fdre", "Arg"])
        if name == "Const":
            return self.add(name, (self.rng.randint(0, 1), 0), [], model.BIT)
        if name == "DC":
            return self.add(name, (0, 0), [], model.BIT)
        if name == "Arg":
            return self.add("Cycle", None, [self.add(name, None, [self.program(0)], model.BIT)], model.BIT)
        var = self.add("Var", (self.rng.choice(self.variables), 0), [], model.BIT)
        return self.add(name, None, [var] * 4, model.BIT) if name == "Fdre" else var

    def over_leaves(self):
        """One operator over values and failures."""
        name = self.rng.choice(["And", "Nor", "Xor", "Lut", "Bus", "Mux"])
        leaves = [self.leaf() for _ in range(2)]
        if name == "Mux":
            leaves.insert(0, self.add("Var", (self.rng.choice(self.variables), 0), [], model.BIT))
        if name == "Lut":
            k = self.rng.randint(1, 2)
            leaves = [self.program(self.rng.randrange(2 ** 2 ** k))] + leaves[:k]
        return self.add(name, None, leaves, model.bus(2) if name == "Bus" else model.BIT)

    def of_no_width(self):
        """A gate over buses without members, of which one may fail."""
        selector = self.leaf()
        empty = self.add("Bus", None, [], model.bus(0))
        chosen = self.add("Mux", None, [selector, empty, empty], model.bus(0))
        operands = self.rng.choice([[empty, chosen], [chosen, empty], [chosen, chosen]])
        return self.add(self.rng.choice(["And", "Nor", "Xor"]), None, operands, model.bus(0))

    def under_cycles(self):
        """An Arg under several chains of Cycles: it may reach too high on one of them."""
        rng = self.rng
        index = rng.choice([0, 0, 1, 1, 2])
        chain = [self.add("Arg", None, [self.program(index)], model.BIT)]
        for _ in range(index + rng.randint(0, 1)):
            chain.append(self.add("Cycle", None, [chain[-1]], model.BIT))
        root = self.add("And", None, [rng.choice(chain), rng.choice(chain)], model.BIT)
        for _ in range(rng.choice([0, 0, 1, 2])):
            root = self.add("Cycle", None, [root], model.BIT)
        return root

    def wide_lut(self):
        """A Lut of many operands; its program may depend on few of them."""
        rng = self.rng
        k = rng.choice([4, 5, 6, 6])
        leaves = [self.leaf() for _ in range(2)]
        leaves += [self.add("Var", (v, 0), [], model.BIT) for v in self.variables]
        digits = {row: rng.randint(0, 1) for row in model.rows(k)}
        for at in range(k):
            if rng.random() < 0.2:
                digits = {row: digits[row[:at] + (0,) + row[at + 1:]] for row in digits}
        operands = [rng.choice(leaves) for _ in range(k)]
        return self.add("Lut", None, [self.program(model.program_of(digits, k))] + operands, model.BIT)

    def register_of_buses(self):
        leaf = self.leaf()
        inverted = self.add("Not", None, [leaf], model.BIT)
        empty = self.add("Bus", None, [], model.bus(0))
        operands = [self.rng.choice([leaf, inverted, empty]) for _ in range(4)]
        return self.add(self.rng.choice(sorted(model.REGISTERS)), None, operands, model.BIT)

    def special(self):
        """A tree of a form that a slip is likely to treat wrongly."""
        return self.rng.choice([self.over_leaves, self.over_leaves, self.of_no_width, self.under_cycles, self.wide_lut,
                                self.register_of_buses])()

    def any_shape(self):
        return self.rng.choice([model.BIT] * 6 + [model.bus(n) for n in (0, 1, 2, 2, 3)])

    def loose(self):
        """A node of any kind over any lower nodes, sound or not."""
        rng = self.rng
        here = len(self.kinds)
        name = rng.choice(KINDS)
        if name in model.LEAVES:
            fields = {"Const": (rng.randint(0, 1), 0), "DC": (0, 0), "Var": (rng.choice(self.variables), 0),
                      "Program": (rng.choice([0, 0, 1, 2, 3, 6, 8, 15, 16, 202, 255, 256]), rng.choice([0, 0, 0, 1]))}
            return self.add(name, fields[name], [], None)
        count = model.CHILDREN.get(name, rng.choice([0, 1, 2, 2, 3, 3, 4, 8]))
        if here == 0 and count > 0:
            return self.add("Bus", None, [], None)
        children = [rng.randrange(here) for _ in range(count)]
        programs = [i for i, kind in enumerate(self.kinds) if kind == KIND["Program"]]
        if name in ("Lut", "Arg") and programs and children and rng.random() < 0.8:
            children[0] = rng.choice(programs)
        return self.add(name, None, children, None)

    def words(self):
        """Node words and pool; a part of the pool is sometimes used twice, or followed by a gap."""
        rng = self.rng
        nodes, pool = [], []
        for kind, fields, children in zip(self.kinds, self.fields, self.children):
            if fields is None:
                places = [at for at in range(len(pool) - len(children) + 1)
                          if pool[at:at + len(children)] == children]
                first = rng.choice(places) if places and rng.random() < 0.5 else len(pool)
                if first == len(pool):
                    pool += children
                    pool += [rng.randrange(9)] * (rng.random() < 0.05)
                fields = (first, len(children))
            nodes += [kind, fields[0], fields[1]]
        return nodes, pool


def sound_list(rng, variables=None, bit=False):
    """A list whose root is evaluable but for Args, now and then after nodes that it does not reach."""
    while True:
        drawing = Drawing(rng)
        if variables is not None:
            drawing.variables = variables
        while rng.random() < 0.3:
            drawing.loose()
        if rng.random() < 0.15:
            drawing.draw(drawing.any_shape(), 0)
        if rng.random() < 0.4:
            drawing.special()
            return drawing.words()
        shape = model.BIT if bit else drawing.any_shape()
        root = drawing.draw(shape, 0)
        if root != len(drawing.kinds) - 1:
            drawing.add("Cycle", None, [root], shape)
        if len(drawing.kinds) <= MOST_DRAWN and (len(drawing.kinds) > 2 or rng.random() < 0.2):
            return drawing.words()


def loose_list(rng):
    drawing = Drawing(rng)
    for _ in range(rng.randint(1, 7)):
        drawing.loose()
    return drawing.words()


def odd_word(rng):
    return rng.choice([0, 0, 1, 1, 2, 2, 3, 4, 5, 6, 7, 8, 16, 17, 64, 65, 255, 256, WORD - 1, rng.randrange(WORD)])


def damaged(rng, nodes, pool):
    nodes, pool = list(nodes), list(pool)
    if len(nodes) % 3 != 0:
        return nodes, pool
    at = rng.randrange(max(len(nodes) // 3, 1)) * 3
    way = rng.choice([*range(15), 9, 11, 11, 12, 12, 13, 14, 14])
    if way == 0 and nodes:
        nodes[rng.randrange(len(nodes))] = odd_word(rng)
    elif way == 1 and pool:
        pool[rng.randrange(len(pool))] = rng.choice([len(nodes) // 3, WORD - 1, rng.randrange(8), rng.randrange(8)])
    elif way == 2 and pool:
        pool.pop()
    elif way == 12 and nodes:
        first, count = rng.choice([(len(pool) + 1, 0), (WORD - 1, 1), (1, WORD - 1), (len(pool), 0), (WORD - 2, 2)])
        nodes[at:at + 3] = [rng.choice([KIND["Lut"], KIND["Bus"], KIND["And"], KIND["Not"]]), first, count]
    elif way == 13 and nodes:
        nodes[at:at + 3] = [KIND["Var"], rng.choice([255, 256]), rng.choice([0, 0, 1])]
    elif way == 14 and nodes:
        name = rng.choice(["Not", "Cycle", "Mux", "Fdse", "And", "Xor", "Nor", "Bus", "Arg", "Lut"])
        last = len(nodes) // 3
        children = [rng.choice([last, last - 1]) for _ in range(model.CHILDREN.get(name, rng.randint(1, 3)))]
        return nodes + [KIND["Program"], 0, 0, KIND[name], len(pool), len(children)], pool + children
    elif way == 3 and nodes:
        nodes[at] = rng.choice([17, 18, 99, WORD - 1])
    elif way == 4 and nodes:
        nodes[at + 2] = (nodes[at + 2] + rng.choice([1, -1])) % WORD
    elif way == 5 and nodes:
        nodes[at] = rng.choice([4, 6, 7, 8, 9, 10, 15, 16])
    elif way == 6 and nodes:
        programs = [i for i in range(len(nodes) // 3) if nodes[3 * i] == KIND["Program"]]
        if programs and pool:
            pool[rng.randrange(len(pool))] = rng.choice(programs)
    elif way == 7:
        return rng.choice([(nodes[:-1], pool), (nodes + [0], pool), ([], pool), ([], [])])
    elif way == 8:
        return rng.choice([([0] * 3 * (model.MOST_NODES + 1), pool), (nodes, [0] * (model.MOST_POOL + 1)),
                           ([0] * 3, [0] * model.MOST_POOL)])
    elif way == 9 and nodes:
        nodes[at + 1] = rng.choice([len(pool), len(pool) + 1, WORD - 1, (nodes[at + 1] + 1) % WORD])
    elif way == 10:
        count = rng.choice([64, 65])
        return [KIND["Const"], 1, 0, KIND["Bus"], 0, count], [0] * (count - (rng.random() < 0.2))
    elif way == 11:
        k = rng.choice([0, 1, 2, 3, 4, 5, 5, 6, 7])
        low = rng.choice([2 ** 2 ** min(k, 5) % WORD, 2 ** 2 ** min(k, 5) - 1])
        high = rng.choice([0, 1, WORD - 1]) if k >= 5 else 0
        return [KIND["Const"], 1, 0, KIND["Program"], low, high, KIND["Lut"], 0, k + 1], [1] + [0] * k
    return nodes, pool


def any_list(rng, odds, **how):
    """A sound list; or, with these odds, one that is loose or damaged."""
    if rng.random() >= odds:
        return sound_list(rng, **how)
    found = sound_list(rng, **how) if rng.random() < 0.5 else loose_list(rng)
    for _ in range(rng.choice([0, 1, 1, 1, 2, 3])):
        found = damaged(rng, *found)
    return found


# ---- drawing a case: each fault has the same odds, high in one case of four, so that several come together


def draw_odds(rng):
    return rng.choice([0.1, 0.1, 0.1, 0.6])


def work_for(rng, odds, *lists):
    asked = sum(16 * (len(nodes) // 3) + 2 * len(pool) for nodes, pool in lists)
    if rng.random() < odds / 2:
        return [1] * max(rng.choice([asked - 1, asked - 2, asked // 2, 0]), 0)
    return [1] * (min(asked, 40000) + rng.choice([0, 0, 1, 3]))


def output_for(rng, odds, asked):
    return [LENT] * max(asked + (-1 if rng.random() < odds else rng.choice([0, 0, 1, 3])), 0)


def draw_verify(rng):
    odds = draw_odds(rng)
    nodes, pool = any_list(rng, odds)
    return nodes, pool, work_for(rng, odds, (nodes, pool))


def draw_evaluate(rng):
    odds = draw_odds(rng)
    nodes, pool = any_list(rng, odds)
    assignment = [rng.choice([0, 1, 0, 1, 0, 1, 2]) for _ in range(rng.choice([0, 1, 2, 3, 3, 3, 4]))]
    if rng.random() < 0.1:
        assignment = [rng.randint(0, 1)] * 256
    if rng.random() < odds:
        assignment = rng.choice([[0] * 257, assignment + [3], [255] + assignment])
    out = output_for(rng, odds, 2 * (len(nodes) // 3) if len(nodes) < 100 else 4)
    return nodes, pool, assignment, work_for(rng, odds, (nodes, pool)), out


def many_variables(count):
    nodes = [word for v in range(count) for word in (KIND["Var"], v, 0)]
    return nodes + [KIND["Bus"], 0, count], list(range(count))


def like(rng, nodes, pool):
    """A list beside a sound one: its tree listed otherwise, its canonical list, one with another leaf, or a bus of it."""
    tree = model.Listed(nodes, pool).trees[-1]
    way = rng.randrange(5)
    if way == 0:
        return model.listing(tree)
    if way == 1:
        return model.listing(model.canonical(tree))
    if way == 2:
        return nodes + [KIND["Bus"], len(pool), 1], pool + [len(nodes) // 3 - 1]
    nodes, pool = model.listing(model.canonical(tree) if way == 3 else tree)
    leaves = [at for at in range(0, len(nodes), 3) if nodes[at] in (KIND["Const"], KIND["Program"], KIND["Var"])]
    if leaves:
        nodes[rng.choice(leaves) + 1] ^= 1
    return nodes, pool


def draw_compare(rng):
    odds = draw_odds(rng)
    variables = rng.choice([[0, 1], [0, 1, 2], [3, 7, 200]])
    first = any_list(rng, odds, variables=variables)
    second = any_list(rng, odds, variables=variables)
    whole = model.evaluate(*first, [], [0] * 10000, [0] * 10000)[0][0] == 0
    if whole and rng.random() < 0.6:
        second = like(rng, *first)
        if rng.random() < odds / 2:
            second = damaged(rng, *second)
    if rng.random() < 0.04:
        first = many_variables(rng.choice([30, 31, 31]))
        if rng.random() < 0.2:
            second = first
    elif rng.random() < 0.2:
        first, second = second, first
    return first + second + (work_for(rng, odds, first, second),)


def draw_separate(rng):
    odds = draw_odds(rng)
    if rng.random() < 0.05:
        v = rng.randrange(3)
        return [KIND["Var"], v, 0], [], 30, 2 ** v + 2 ** 29, work_for(rng, odds, ([0] * 3, []))
    n = rng.choice([0, 1, 2, 2, 3, 3, 3, 3, 4])
    variables = list(range(n if rng.random() >= odds / 2 else n + 1)) or [0]
    nodes, pool = any_list(rng, odds, variables=variables)
    run = rng.randrange(2 ** n)
    if rng.random() < odds / 2:
        run = rng.choice([2 ** n, 2 ** n, 2 ** n + run, WORD - 1])
    if rng.random() < odds / 3:
        n = rng.choice([31, 32, WORD - 1])
    return nodes, pool, n, run, work_for(rng, odds, (nodes, pool))


def draw_canonicalise(rng):
    odds = draw_odds(rng)
    nodes, pool = any_list(rng, odds, bit=rng.random() < 0.7)
    work = work_for(rng, odds, (nodes, pool))
    answer = model.canonicalise(nodes, pool, work, [LENT] * 200, [LENT] * 200)[0]
    return nodes, pool, work, output_for(rng, odds, answer[2] or 9), output_for(rng, odds, answer[3] or 3)


DRAW = {"verify": draw_verify, "evaluate": draw_evaluate, "compare": draw_compare, "separate": draw_separate,
        "canonicalise": draw_canonicalise}
MODEL = {"verify": model.verify, "evaluate": model.evaluate, "compare": model.compare, "separate": model.separate,
         "canonicalise": model.canonicalise}


class Case:
    def __init__(self, call, given, outcome):
        self.call = call
        self.given = given
        self.answer, self.work, *self.outputs = outcome
        self.name = outcome_name(call, self.answer)


def wanted(rng, count):
    """The call and outcome asked of each case: the calls in turn, each going round its outcomes in a drawn order."""
    order = {call: [] for call in WANTED}
    for at in range(count):
        call = list(WANTED)[at % len(WANTED)]
        if not order[call]:
            order[call] = list(WANTED[call])
            rng.shuffle(order[call])
        yield call, order[call].pop()


def draw_cases(rng, count):
    cases = []
    for call, name in wanted(rng, count):
        for _ in range(TRIES):
            given = DRAW[call](rng)
            case = Case(call, given, MODEL[call](*given))
            if case.name == name:
                cases.append(case)
                break
        else:
            raise SystemExit(f"no case of {call} with outcome {name} was drawn")
    return cases


# ---- the cases as equations


def literal(words):
    """A list of numbers; a long run of one number is written short."""
    parts = []
    for word, run in itertools.groupby(words):
        run = list(run)
        if len(run) >= LONG_RUN:
            parts.append(f"replicate {len(run)} {word}")
        elif parts and isinstance(parts[-1], list):
            parts[-1] += run
        else:
            parts.append(run)
    texts = [part if isinstance(part, str) else "(" + "".join(f"{word} ∷ " for word in part) + "[])" for part in parts]
    return "(" + " ++ ".join(texts) + ")" if texts else "[]"


def line(case):
    given = " ".join(literal(each) if isinstance(each, (list, tuple)) else str(each) for each in case.given)
    left = "untouched" if case.answer[0] in (1, 2, 10) and case.work else "zeros"
    outputs = "(" + "".join(literal(output) + " ∷ " for output in case.outputs) + "[])"
    return f"({case.call}_raw {given} leaves outcome {literal(case.answer)} {left} {outputs})"


RAW = """
unfoldable pub verify_raw : List ℕ → List ℕ → List ℕ → Outcome
verify_raw = verify_all

unfoldable pub evaluate_raw : List ℕ → List ℕ → List ℕ → List ℕ → List ℕ → Outcome
evaluate_raw = evaluate_all

unfoldable pub compare_raw : List ℕ → List ℕ → List ℕ → List ℕ → List ℕ → Outcome
compare_raw ns ps ms qs work =
    let o = compare ns ps ms qs work in
    let a = o.answer in
    outcome
    (a.refusal.number ∷ a.refusal.node ∷ check_number a.verdict ∷ a.index ∷ (told a.first ++ told a.second))
    (left work o.work) []

unfoldable pub separate_raw : List ℕ → List ℕ → ℕ → ℕ → List ℕ → Outcome
separate_raw ns ps n run work =
    let o = separate ns ps n run work in
    let a = o.answer in
    outcome
    (a.refusal.number ∷ a.refusal.node ∷ judgement_number a.judgement ∷ a.index ∷ (told a.run ++ told a.cleared))
    (left work o.work) []

unfoldable pub canonicalise_raw : List ℕ → List ℕ → List ℕ → List ℕ → List ℕ → Outcome
canonicalise_raw ns ps work out_nodes out_pool =
    let o = canonicalise ns ps work out_nodes out_pool in
    let a = o.answer in
    outcome (a.refusal.number ∷ a.refusal.node ∷ a.nodes ∷ a.pool ∷ []) (left work o.work) (o.out_nodes ∷ o.out_pool ∷ [])
"""
CASES = os.path.join("proofs", "Claims", "Cases")
OWN = "use Rattle.meaning.proofs.Claims.Cases.Outcomes.{Left, zeros, untouched, neither, left, Outcome, outcome, " \
      "told, verify_all, evaluate_all, compare_all, separate_all, canonicalise_all, Whole, ◌leaves◌}\n"


def head():
    """The `use` lines of Outcomes.antt and the names that its claim unfolds."""
    with open(os.path.join(CRATE, CASES, "Outcomes.antt"), encoding="utf-8") as file:
        text = file.read()
    uses = "".join(use + "\n" for use in re.findall(r"^use .*$", text, re.M))
    unfolded = re.search(r"^unfolding outcomes (.*)$", text, re.M).group(1)
    return uses + OWN + RAW, "verify_raw evaluate_raw compare_raw separate_raw canonicalise_raw " + unfolded


def table_text(number, cases, unfolded):
    body = "\n    ∷ ".join(line(case) for case in cases)
    return f"""
unfoldable pub table{number} : List Whole
table{number} =
    {body}
    ∷ []

pub table{number}_claim : map (λ (w : Whole). w.computed) table{number} ≡ map (λ (w : Whole). w.document) table{number}
unfolding table{number} {unfolded}
table{number}_claim = refl
"""


class Copy:
    """A copy of the crate in a folder of its own, with room for the generated file."""

    def __init__(self, folder):
        self.crate = os.path.join(folder, "crates", "meaning")
        shutil.copytree(CRATE, self.crate, ignore=shutil.ignore_patterns("out"))
        self.file = os.path.join(self.crate, CASES, "Random.antt")
        with open(os.path.join(self.crate, CASES + ".antt"), "a", encoding="utf-8") as file:
            file.write("pub mod Random\n")
        with open(os.path.join(folder, "crates.txt"), "w", encoding="utf-8") as file:
            file.write("meaning:\n")
        self.head, self.unfolded = head()

    def check(self, tables):
        """What is printed of each refused table, by its number; None where something else is refused."""
        with open(self.file, "w", encoding="utf-8") as file:
            file.write(self.head + "".join(table_text(i, cases, self.unfolded) for i, cases in enumerate(tables)))
        done = subprocess.run(["rt", "check"], cwd=self.crate, capture_output=True, text=True, check=False)
        if done.returncode == 0:
            return {}
        printed = done.stdout + done.stderr
        found = {}
        for error in re.findall(r"^\S+: error: .*$", printed, re.M):
            claim = re.search(r"Random\.antt:.*`table(\d+)_claim`", error)
            if claim is None or "not in scope" in error:
                found = {}
                break
            found[int(claim.group(1))] = error
        if not found:
            print(printed)
            return None
        return found


def in_tables(cases, size):
    return [cases[at:at + size] for at in range(0, len(cases), size)]


def refused_cases(copy, cases):
    """The cases that are refused, with what is printed; None where there is no verdict.

    A refused table is cut into its cases: one that only asked too many steps is then accepted."""
    tables = in_tables(cases, LINES_PER_TABLE)
    found = copy.check(tables)
    if found:
        suspects = [case for number in sorted(found) for case in tables[number]]
        found = copy.check(in_tables(suspects, 1))
        return found and [(suspects[number], found[number]) for number in sorted(found)]
    return found


def tally(cases):
    for call, names in WANTED.items():
        found = [case.name for case in cases if case.call == call]
        each = ", ".join(f"{name}: {found.count(name)}" for name in dict.fromkeys(names))
        print(f"{call} {len(found)} ({each})")


def shown(given):
    return given if isinstance(given, int) or len(given) < 100 else f"{len(given)} words {literal(given)}"


def main():
    if not all(word.isdecimal() for word in sys.argv[1:]) or len(sys.argv) > 3:
        print(__doc__)
        return 2
    count = int(sys.argv[1]) if len(sys.argv) > 1 else 300
    seed = int(sys.argv[2]) if len(sys.argv) > 2 else 1
    cases = draw_cases(random.Random(seed), count)
    tally(cases)
    with tempfile.TemporaryDirectory() as folder:
        refused = refused_cases(Copy(folder), cases)
    if refused is None:
        print("no verdict: something else than the cases is refused")
        return 2
    if not refused:
        print(f"{count} cases, all as the model says")
        return 0
    different = [case for case, printed in refused if STEP_LIMIT not in printed]
    if not different:
        print(f"no verdict: {len(refused)} of {count} cases ask too many steps; the first is {line(refused[0][0])}")
        return 2
    case = different[0]
    print(f"{len(different)} of {count} cases differ; the first is case {cases.index(case)}, {case.call}")
    print("given:", *(shown(each) for each in case.given), sep="\n  ")
    print("the model says:", case.answer, *case.outputs, sep="\n  ")
    print("as an equation:", line(case), sep="\n  ")
    return 1


if __name__ == "__main__":
    sys.exit(main())
