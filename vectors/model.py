"""A model of document 01: what verify, evaluate, compare, separate and canonicalise answer, and what they leave behind.

It is written from the sentences of document 01 (and, where that leaves one open, from the reading that
docs/DECISIONS.md names), and from no definition or code of the crates, so that it can be held against them. Where the
document is silent, the Rust it cites decides: an assignment under which a side fails makes a comparison Inconclusive.

How it is written, so that a slip made elsewhere is not made here again:
- a list is read once into trees; all answers are recursive functions of trees, equal trees are equal Python values;
- a value is the tuple of its bits, the first member of a bus first, and never a word; And is a walk along two tuples;
- a truth table is a dictionary from each assignment of the operands to its digit; an operand is dropped by taking
  the assignments that are left;
- a refusal is an exception, so the order of the refusals is the order of the lines that raise them.

It follows every path, so it is for small lists; within `each_tree_once` of comparisons.py it goes by node, and longer
ones will do. Each call takes what it is lent as lists of numbers and gives back its answer words, the work space as it
is afterwards, and the outputs as they are afterwards. Nothing given is changed.
"""
import itertools
from collections import namedtuple

KINDS = ["Const", "Program", "DC", "Var", "Nor", "Mux", "And", "Xor", "Not", "Lut", "Bus", "Fdre", "Fdse", "Fdpe",
         "Fdce", "Arg", "Cycle"]
LEAVES = {"Const", "Program", "DC", "Var"}
REGISTERS = {"Fdre", "Fdse", "Fdpe", "Fdce"}
GATES = {"Nor", "Mux", "And", "Xor", "Not"}
CHILDREN = {"Nor": 2, "And": 2, "Xor": 2, "Mux": 3, "Not": 1, "Arg": 1, "Cycle": 1,
            "Fdre": 4, "Fdse": 4, "Fdpe": 4, "Fdce": 4}

WORDS_PER_NODE = 3
MOST_NODES = 4096
MOST_POOL = 16384
MOST_MEMBERS = 64
VARIABLES = 256
HALF = 2 ** 32
WORK_PER_NODE = 16
WORK_PER_POOL = 2
MOST_INPUTS = 30
MOST_BYTES = 256
MOST_OPERANDS = 6

UNDRIVEN, DONT_CARE, REGISTER, ARG, NO_ANSWER = 1, 2, 3, 4, 5
EQUIV, NOT_EQUIV, INCONCLUSIVE = 0, 1, 2
SEPARATE, CROSSING = 0, 1

# datum: the value of a Const or a Program, the number of a Var, else None
Tree = namedtuple("Tree", "kind datum children")


class Refused(Exception):
    def __init__(self, number, node=0):
        super().__init__(number, node)
        self.number = number
        self.node = node


# ---- the node list (document 01, The node list; Numbers a call answers with)


def node_words(nodes):
    """The (kind, first, count) of each node."""
    return [tuple(nodes[at:at + WORDS_PER_NODE]) for at in range(0, len(nodes), WORDS_PER_NODE)]


def sizes(nodes, pool):
    """Numbers 1 and 2."""
    if len(nodes) % WORDS_PER_NODE != 0:
        raise Refused(1)
    if len(nodes) // WORDS_PER_NODE > MOST_NODES or len(pool) > MOST_POOL:
        raise Refused(2)


def room(lists, work):
    """Number 10: the work space asked, summed over the lists brought."""
    asked = sum(WORK_PER_NODE * (len(nodes) // WORDS_PER_NODE) + WORK_PER_POOL * len(pool) for nodes, pool in lists)
    if len(work) < asked:
        raise Refused(10)


def breaks_layout(name, first, count, pool):
    """Number 4, for a node of a known kind."""
    if name == "Const":
        return first not in (0, 1) or count != 0
    if name == "Program":
        return False
    if name == "DC":
        return (first, count) != (0, 0)
    if name == "Var":
        return first >= VARIABLES or count != 0
    if name == "Bus" and count > MOST_MEMBERS:
        return True
    if name in CHILDREN and count != CHILDREN[name]:
        return True
    return first + count > len(pool)


def layout(nodes, pool):
    """Numbers 3, 4 and 5 at the lowest faulty node, the lowest number if it has two; every node counts."""
    for i, (kind, first, count) in enumerate(node_words(nodes)):
        if kind >= len(KINDS):
            raise Refused(3, i)
        name = KINDS[kind]
        if breaks_layout(name, first, count, pool):
            raise Refused(4, i)
        if name not in LEAVES and any(child >= i for child in pool[first:first + count]):
            raise Refused(5, i)


class Listed:
    """A list past numbers 1 to 5: for each node its name, its children's numbers and its tree."""

    def __init__(self, nodes, pool):
        self.names = []
        self.children = []
        self.trees = []
        for kind, first, count in node_words(nodes):
            name = KINDS[kind]
            children = [] if name in LEAVES else pool[first:first + count]
            datum = {"Const": first, "Var": first, "Program": first + HALF * count}.get(name)
            self.names.append(name)
            self.children.append(children)
            self.trees.append(Tree(name, datum, tuple(self.trees[child] for child in children)))
        self.root = len(self.names) - 1
        # each reachable node, with the least number of Cycle nodes over it on any path from the root
        self.cycles_over = {}
        if self.names:
            self.follow(self.root, 0)

    def follow(self, i, cycles):
        """Walk every path down from node i, over which there are so many Cycles; a path that finds no less is left."""
        if i in self.cycles_over and self.cycles_over[i] <= cycles:
            return
        self.cycles_over[i] = cycles
        below = cycles + 1 if self.names[i] == "Cycle" else cycles
        for child in self.children[i]:
            self.follow(child, below)

    def reachable(self):
        return sorted(self.cycles_over)


# ---- verification (document 01, Verification)


def fails_verification(tree, cycles):
    kinds = [child.kind for child in tree.children]
    if tree.kind == "Lut":
        if not 1 <= len(kinds) <= MOST_OPERANDS + 1 or kinds[0] != "Program":
            return True
        k = len(kinds) - 1
        return k < MOST_OPERANDS and tree.children[0].datum >= 2 ** (2 ** k)
    if tree.kind in ("And", "Xor", "Nor"):
        return "Program" in kinds
    if tree.kind == "Bus":
        return "Program" in kinds or "Bus" in kinds
    if tree.kind == "Arg":
        return kinds[0] != "Program" or tree.children[0].datum >= cycles
    return False


def verification(listed):
    """Number 6 at the lowest faulty node that is reachable."""
    for i in listed.reachable():
        if fails_verification(listed.trees[i], listed.cycles_over[i]):
            raise Refused(6, i)


# ---- evaluable (document 01, Evaluable)

BIT = ("bit", 1)


def bus(members):
    return ("bus", members)


def shape(tree):
    """The shape of an evaluable tree; None for a Program, which has none."""
    if tree.kind == "Program":
        return None
    if tree.kind == "Bus":
        return bus(len(tree.children))
    if tree.kind in ("And", "Nor", "Xor", "Not", "Cycle"):
        return shape(tree.children[0])
    if tree.kind == "Mux":
        return shape(tree.children[1])
    return BIT


def is_misshapen(tree):
    """Whether this node breaks a rule, where those below it break none; a misplaced child is its parent's fault."""
    shapes = [shape(child) for child in tree.children]
    if tree.kind == "Lut":
        return any(operand != BIT for operand in shapes[1:])
    if tree.kind == "Arg":
        return False
    if None in shapes:
        return True
    if tree.kind == "Bus":
        return any(member != BIT for member in shapes)
    if tree.kind in ("And", "Nor", "Xor"):
        return shapes[0] != shapes[1]
    if tree.kind == "Mux":
        return shapes[0] != BIT or shapes[1] != shapes[2]
    return False


def evaluability(listed):
    """Number 8 at the lowest faulty node; a Program at the root is its own fault."""
    for i in listed.reachable():
        tree = listed.trees[i]
        if is_misshapen(tree) or (i == listed.root and tree.kind == "Program"):
            raise Refused(8, i)


def evaluable(nodes, pool):
    """Numbers 3 to 8 of one list."""
    layout(nodes, pool)
    listed = Listed(nodes, pool)
    verification(listed)
    if not listed.names:
        raise Refused(7)
    evaluability(listed)
    return listed


# ---- truth tables


def rows(k):
    """All assignments of k operands in the order of the row numbers: the first operand is the most significant bit."""
    return list(itertools.product((0, 1), repeat=k))


def table(program, k):
    """The digit of each assignment: those of the program's numeral from its low end."""
    digits = format(program, "b")[::-1].ljust(2 ** k, "0")
    return {row: int(digit) for row, digit in zip(rows(k), digits)}


def program_of(digits, k):
    return int("".join(str(digits[row]) for row in reversed(rows(k))), 2)


# ---- answers (document 01, Answers of a node): ("value", bits) or ("failure", state)


def value(bits):
    return ("value", tuple(bits))


def failure(state):
    return ("failure", state)


def failed(answer):
    return answer[0] == "failure"


def zeros_like(bits):
    return value(0 for _ in bits)


def absorbing(first, second, absorbs, of_values):
    """And and Nor: one failure gives way to a value that absorbs; of two failures, the first."""
    if failed(first) and failed(second):
        return first
    if failed(first):
        return zeros_like(second[1]) if absorbs(second[1]) else first
    if failed(second):
        return zeros_like(first[1]) if absorbs(first[1]) else second
    return value(of_values(a, b) for a, b in zip(first[1], second[1]))


def answer(tree, driven):
    """The answer of a tree, given the bit of each driven variable."""
    def of(child):
        return answer(child, driven)

    if tree.kind == "Const":
        return value([tree.datum])
    if tree.kind == "DC":
        return failure(DONT_CARE)
    if tree.kind == "Var":
        return value([driven[tree.datum]]) if tree.datum in driven else failure(UNDRIVEN)
    if tree.kind in REGISTERS:
        return failure(REGISTER)
    if tree.kind == "Arg":
        return failure(ARG)
    if tree.kind == "Cycle":
        return of(tree.children[0])
    if tree.kind == "Mux":
        selector = of(tree.children[0])
        if failed(selector):
            return selector
        return of(tree.children[1] if selector == value([1]) else tree.children[2])
    if tree.kind == "And":
        return absorbing(*map(of, tree.children), lambda bits: 1 not in bits, lambda a, b: a & b)
    if tree.kind == "Nor":
        return absorbing(*map(of, tree.children), lambda bits: 0 not in bits, lambda a, b: 1 - (a | b))

    operands = tree.children[1:] if tree.kind == "Lut" else tree.children
    answers = [of(operand) for operand in operands]
    failures = [each for each in answers if failed(each)]
    if failures:
        return failures[-1] if tree.kind == "Bus" else failures[0]
    values = [bits for _, bits in answers]
    if tree.kind == "Xor":
        return value(a ^ b for a, b in zip(*values))
    if tree.kind == "Not":
        return value(1 - a for a in values[0])
    bits = tuple(bit for (bit,) in values)
    if tree.kind == "Bus":
        return value(bits)
    assert tree.kind == "Lut"
    return value([table(tree.children[0].datum, len(bits))[bits]])


def told(an_answer):
    """State, width and value; 0 and 0 after the state of a failure. The last bit is bit 0."""
    if failed(an_answer):
        return [an_answer[1], 0, 0]
    bits = an_answer[1]
    return [0, len(bits), sum(bit * 2 ** place for place, bit in enumerate(reversed(bits)))]


# ---- comparison (document 01, Comparison and separation)


def variables(tree):
    below = {tree.datum} if tree.kind == "Var" else set()
    return below.union(*(variables(child) for child in tree.children))


def bits_of(i, count):
    return [i // 2 ** j % 2 for j in range(count)]


def decide(first, second):
    """Verdict, index and both answers of two evaluable trees."""
    if first == second:
        return [EQUIV] + [0] * 7
    inputs = sorted(variables(first))
    if len(inputs) > MOST_INPUTS:
        raise Refused(9)
    for i in range(2 ** len(inputs)):
        driven = dict(zip(inputs, bits_of(i, len(inputs))))
        answers = answer(first, driven), answer(second, driven)
        if failed(answers[0]) or failed(answers[1]):
            return [INCONCLUSIVE, i] + told(answers[0]) + told(answers[1])
        if answers[0] != answers[1]:
            return [NOT_EQUIV, i] + told(answers[0]) + told(answers[1])
    return [EQUIV] + [0] * 7


# ---- separation (document 01, Comparison and separation)


def bounds(listed, n, run):
    """Number 11: n above 30, a variable at n or above anywhere in the list, a mark at bit n or above."""
    if n > MOST_INPUTS or run >= 2 ** n or any(t.kind == "Var" and t.datum >= n for t in listed.trees):
        raise Refused(11)


def judge(tree, n, run):
    """Judgement, index and the answers at i and at i with its run bits cleared."""
    marked = {v for v in range(n) if bits_of(run, n)[v] == 1}
    for i in range(2 ** n):
        driven = dict(enumerate(bits_of(i, n)))
        cleared = {v: 0 if v in marked else bit for v, bit in driven.items()}
        answers = answer(tree, driven), answer(tree, cleared)
        if answers[0] != answers[1]:
            return [CROSSING, i] + told(answers[0]) + told(answers[1])
    return [SEPARATE] + [0] * 7


# ---- the canonical list (document 01, Canonical list)

GATE_PROGRAMS = {"Mux": 202, "And": 8, "Xor": 6, "Nor": 1, "Not": 1}


def gates_are_bits(listed):
    """Number 14 at the lowest reachable gate that isn't a bit."""
    for i in listed.reachable():
        if listed.names[i] in GATES and shape(listed.trees[i]) != BIT:
            raise Refused(14, i)


def constant(bit):
    return Tree("Const", bit, ())


def lut(program, operands):
    return Tree("Lut", None, (Tree("Program", program, ()),) + tuple(operands))


def drop(digits, at, bit):
    """The rows left where the operand at this place is the bit, without it."""
    return {row[:at] + row[at + 1:]: digit for row, digit in digits.items() if row[at] == bit}


def droppable(digits, operands):
    """The operand that rule 3 drops and the bit whose rows are kept; None where it drops none."""
    for at, operand in enumerate(operands):
        if operand.kind == "Const":
            return at, operand.datum
    for at in range(len(operands)):
        if drop(digits, at, 0) == drop(digits, at, 1):
            return at, 0
    return None


def fold(program, operands):
    """A Lut over folded operands, folded until no rule applies."""
    k = len(operands)
    if k == 0:
        return constant(program)
    if k == 1:
        if program in (0, 3):
            return constant(1 if program == 3 else 0)
        if program == 2:
            return operands[0]
        return constant(1 - operands[0].datum) if operands[0].kind == "Const" else lut(program, operands)
    digits = table(program, k)
    found = droppable(digits, operands)
    if found is None:
        return lut(program, operands)
    at, bit = found
    return fold(program_of(drop(digits, at, bit), k - 1), operands[:at] + operands[at + 1:])


def canonical(tree):
    """The canonical tree, children first."""
    children = tuple(canonical(child) for child in tree.children)
    if tree.kind in GATES:
        return fold(GATE_PROGRAMS[tree.kind], children)
    if tree.kind == "Lut":
        return fold(children[0].datum, children[1:])
    return Tree(tree.kind, tree.datum, children)


def listing(root):
    """Each distinct subtree once, children before parents, left to right; the pool without gaps."""
    numbers, nodes, pool = {}, [], []

    def visit(tree):
        if tree in numbers:
            return
        for child in tree.children:
            visit(child)
        if tree.kind == "Program":
            fields = [tree.datum % HALF, tree.datum // HALF]
        elif tree.kind in LEAVES:
            fields = [tree.datum or 0, 0]
        else:
            fields = [len(pool), len(tree.children)]
        nodes.extend([KINDS.index(tree.kind)] + fields)
        pool.extend(numbers[child] for child in tree.children)
        numbers[tree] = len(numbers)

    visit(root)
    return nodes, pool


# ---- the calls


def call(body, refused, work, *outputs):
    """The whole outcome of a call: answer words, work space, then the outputs.

    The body answers its fields and, for each output, the words to write there; where it refuses, these fields answer
    and the outputs are as they were. Work space is unchanged if 1, 2 or 10 refuses, else all zeros. Past the answer an
    output is unchanged."""
    try:
        fields, written = body()
        number, node = 0, 0
    except Refused as refusal:
        number, node, fields, written = refusal.number, refusal.node, refused, [[] for _ in outputs]
    left = list(work) if number in (1, 2, 10) else [0] * len(work)
    return ([number, node] + fields, left) + tuple(new + old[len(new):] for new, old in zip(written, outputs))


def verify(nodes, pool, work):
    def body():
        sizes(nodes, pool)
        room([(nodes, pool)], work)
        layout(nodes, pool)
        verification(Listed(nodes, pool))
        return [], []

    return call(body, [], work)


def pairs(listed, driven):
    """State and value of every node; 5 and 0 for Programs and unreachable nodes."""
    words = []
    for i, tree in enumerate(listed.trees):
        if i not in listed.cycles_over or tree.kind == "Program":
            words += [NO_ANSWER, 0]
        else:
            state, _, number = told(answer(tree, driven))
            words += [state, number]
    return words


def evaluate(nodes, pool, assignment, work, out):
    def body():
        sizes(nodes, pool)
        room([(nodes, pool)], work)
        listed = evaluable(nodes, pool)
        if len(assignment) > MOST_BYTES or any(byte > 2 for byte in assignment):
            raise Refused(12)
        driven = {v: byte for v, byte in enumerate(assignment) if byte != 2}
        written = pairs(listed, driven)
        if len(out) < len(written):
            raise Refused(19)
        return told(answer(listed.trees[-1], driven)), [written]

    return call(body, [0, 0, 0], work, out)


def compare(nodes1, pool1, nodes2, pool2, work):
    def body():
        sizes(nodes1, pool1)
        sizes(nodes2, pool2)
        room([(nodes1, pool1), (nodes2, pool2)], work)
        first = evaluable(nodes1, pool1)
        second = evaluable(nodes2, pool2)
        return decide(first.trees[-1], second.trees[-1]), []

    return call(body, [INCONCLUSIVE] + [0] * 7, work)


def separate(nodes, pool, n, run, work):
    def body():
        sizes(nodes, pool)
        room([(nodes, pool)], work)
        listed = evaluable(nodes, pool)
        bounds(listed, n, run)
        return judge(listed.trees[-1], n, run), []

    return call(body, [CROSSING] + [0] * 7, work)


def canonicalise(nodes, pool, work, out_nodes, out_pool):
    def body():
        sizes(nodes, pool)
        room([(nodes, pool)], work)
        listed = evaluable(nodes, pool)
        gates_are_bits(listed)
        new_nodes, new_pool = listing(canonical(listed.trees[-1]))
        over = len(new_nodes) // WORDS_PER_NODE > MOST_NODES or len(new_pool) > MOST_POOL
        if over or len(out_nodes) < len(new_nodes) or len(out_pool) < len(new_pool):
            raise Refused(19)
        return [len(new_nodes), len(new_pool)], [new_nodes, new_pool]

    return call(body, [0, 0], work, out_nodes, out_pool)
