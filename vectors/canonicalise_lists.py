"""Cases of the canonicaliser that are about the list (document 01, "Canonical list"): "each distinct subtree below the
root once, Programs included, children before parents, left to right, pool without gaps".
"""
import itertools

import model
from canonicalise_folds import folded
from canonicals import expect, expect_ways, stays
from compare_inputs import column, columns
from comparisons import bit
from lister import KIND, of
from networks import Network, unevaluable, unverified
from trees import joined, joined_right, listed, lut, variables

REGISTERS = ("Fdre", "Fdse", "Fdpe", "Fdce")

# ---- order and numbers


def orders(rng):
    """Words written out: a subtree stands where it is first met, a node's part of the pool behind that of the one
    before it."""
    for words, tree in (
            (of(3, 5, 0), "v5"), (of(0, 1, 0), "1"), (of(0, 0, 0), "0"), (of(2, 0, 0), "dc"), (of(10, 0, 0), ("Bus",)),
            (of(3, 1, 0, 3, 0, 0, 10, 0, 2, pool=[0, 1]), ("Bus", "v1", "v0")),
            (of(3, 0, 0, 10, 0, 3, pool=[0, 0, 0]), ("Bus", "v0", "v0", "v0")),
            # a childless node's first is the pool's length so far
            (of(1, 1, 0, 3, 0, 0, 9, 0, 2, 10, 2, 0, 11, 2, 4, pool=[0, 1, 2, 3, 1, 1]),
             ("Fdre", ("Not", "v0"), ("Bus",), "v0", "v0")),
            # a Program's low half first
            (of(1, 5, 7, 3, 0, 0, 9, 0, 7, pool=[0, 1, 1, 1, 1, 1, 1]), lut(7 * 2 ** 32 + 5, *["v0"] * 6)),
            # the Program before the operands, and where a deeper Lut has it already, not again
            (of(1, 6, 0, 3, 0, 0, 3, 1, 0, 9, 0, 3, 3, 2, 0, 9, 3, 3, pool=[0, 1, 2, 0, 3, 4]),
             ("Xor", ("Xor", "v0", "v1"), "v2")),
            (of(1, 6, 0, 3, 2, 0, 3, 0, 0, 3, 1, 0, 9, 0, 3, 9, 3, 3, pool=[0, 2, 3, 0, 1, 4]),
             ("Xor", "v2", ("Xor", "v0", "v1"))),
            # an operand that is the root's other operand's child
            (of(1, 8, 0, 1, 1, 0, 3, 0, 0, 9, 0, 2, 9, 2, 3, pool=[1, 2, 0, 3, 2]), ("And", ("Not", "v0"), "v0")),
            (of(1, 8, 0, 3, 0, 0, 1, 1, 0, 9, 0, 2, 9, 2, 3, pool=[2, 1, 0, 1, 3]), ("And", "v0", ("Not", "v0")))):
        expect_ways(words, tree, rng, 3)


def equal_subtrees(rng):
    """Trees with the same subtree at many places, whatever node each is listed at."""
    pair = lut(8, "v0", "v1")
    other = lut(6, pair, "v2")
    for tree in (("Bus", pair, pair, pair), lut(6, pair, pair), ("Fdce", pair, ("Bus", pair), ("Bus", pair), other),
                 lut(202, pair, other, lut(1, pair)), ("Bus", "v0", "v0", lut(1, "v0"), "v0", lut(1, "v0")),
                 ("Bus", "1", "0", "1", "dc", "0", "dc"), lut(8, ("Cycle", pair), ("Cycle", pair)),
                 ("Fdre", ("Bus",), ("Bus",), ("Bus", "v0"), ("Bus", "v0"))):
        stays(tree, rng, 6)
    # equal only after folding
    for canonical, tree in (
            (lut(8, pair, pair), ("And", ("And", "v0", "v1"), lut(8, "v0", "v1"))),
            (("Bus", "v0", "v0"), ("Bus", ("And", "v0", "1"), ("Xor", "0", "v0"))),
            (("Bus", "1", "1", "1"), ("Bus", lut(1), ("Not", "0"), "1")),
            (lut(6, lut(1, "v0"), lut(1, "v0")), ("Xor", ("Not", "v0"), ("Nor", "v0", "0")))):
        expect_ways(canonical, tree, rng, 4)


def unlike_subtrees():
    """Alike but for one thing, and each listed: kind, datum, a half of a Program, the order or number of children."""
    high = 2 ** 32
    for one, two in (
            (lut(8, "v0", "v1"), lut(8, "v1", "v0")), (lut(8, "v0", "v1"), lut(14, "v0", "v1")),
            (lut(1, "v0"), lut(1, "v1")), (lut(1, "v0", "v1"), lut(1, "v0")), ("v0", "0"), ("0", "1"), ("0", "dc"),
            ("v1", "1"), (("Cycle", "v0"), "v0"), (("Cycle", "v0"), ("Cycle", ("Cycle", "v0"))),
            (lut(high + 2, *variables(range(6))), lut(4 * high + 2, *variables(range(6)))),
            (lut(high, *variables(range(6))), lut(1, *variables(range(6)))),
            (("Fdre", *["v0"] * 4), ("Fdse", *["v0"] * 4)), (("Fdpe", *["v0"] * 4), ("Fdce", *["v0"] * 4)),
            (("Fdre", "v0", "v1", "v1", "v1"), ("Fdre", "v1", "v0", "v1", "v1"))):
        for tree in (("Bus", one, two), ("Bus", two, one), ("Bus", one, two, one)):
            expect(tree, tree)
        if two not in ("0", "1"):
            expect(folded(6, (one, two)), lut(6, one, two))
    single = ("Bus", "v0")
    for one, two in ((("Bus",), single), (single, ("Bus", "v0", "v0")), (single, ("Cycle", single))):
        expect(("Fdre", one, two, two, one), ("Fdre", one, two, two, one))


# ---- Programs


def shared_programs(rng):
    """A Program is listed once, be it of a gate, of a given Lut or an Arg's index."""
    for canonical, tree in (
            (lut(8, lut(8, "v0", "v1"), "v2"), ("And", lut(8, "v0", "v1"), "v2")),
            (lut(8, lut(8, "v0", "v1"), "v2"), lut(8, ("And", "v0", "v1"), "v2")),
            (lut(1, lut(1, "v0", "v1")), ("Not", ("Nor", "v0", "v1"))),
            (lut(202, "v0", lut(202, "v1", "v2", "v3"), "v4"), ("Mux", "v0", lut(202, "v1", "v2", "v3"), "v4")),
            # 1 is the index of the Arg under two Cycles, and the program of Not and of Nor
            (("Cycle", ("Cycle", lut(1, ("Arg", "p1")))), ("Cycle", ("Cycle", ("Not", ("Arg", "p1"))))),
            (("Cycle", ("Cycle", lut(1, ("Arg", "p1"), "v0"))), ("Cycle", ("Cycle", ("Nor", ("Arg", "p1"), "v0")))),
            (("Cycle", ("Cycle", lut(1, ("Arg", "p1")))), ("Cycle", ("Cycle", lut(1, ("Arg", "p1")))))):
        expect_ways(canonical, tree, rng, 4)
    # one Program node serves a Lut and an Arg; 8 is an index under nine Cycles
    net = Network()
    program = net.program(8)
    top = net.add("Lut", program, net.add("Arg", program), net.var(3))
    canonical = lut(8, ("Arg", "p8"), "v3")
    for _ in range(9):
        top, canonical = net.add("Cycle", top), ("Cycle", canonical)
    expect(canonical, net)
    # two Program nodes of one value, and a Lut under each
    net = Network()
    luts = [net.add("Lut", net.program(6), net.var(number), net.var(2)) for number in (0, 1)]
    net.add("Lut", net.program(6), *luts)
    expect(lut(6, lut(6, "v0", "v2"), lut(6, "v1", "v2")), net)


def programs_gone(rng):
    """Programs that no Lut has any more after folding are not listed; those that folding makes are."""
    for canonical, count, tree in (
            ("v0", 1, lut(12, "v0", "v1")), ("0", 1, lut(0, "v0", "v1", "v2")), ("1", 1, lut(1)),
            (lut(1, "v0"), 3, lut(7, "v0", "1")), (lut(8, "v0", "v1"), 4, lut(200, "v0", "v1", "0")),
            (lut(9, "v0", "v1"), 4, lut(195, "v0", "v1", "v2")), (lut(6, "v0", "v2"), 4, lut(90, "v0", "v1", "v2")),
            (lut(11, "v0", "v1"), 4, ("Mux", "v0", "v1", "1")), (lut(8, "v0", "v1"), 4, ("Mux", "v0", "v1", "0")),
            # the Lut's own program is an Arg's index besides, and so stays
            (("Cycle", ("Cycle", ("Bus", ("Arg", "p1"), "v0"))), 6,
             ("Cycle", ("Cycle", ("Bus", ("Arg", "p1"), lut(2, "v0"))))),
            (("Cycle", ("Bus", ("Arg", "p0"), "0")), 5, ("Cycle", ("Bus", ("Arg", "p0"), lut(0, "v0"))))):
        assert len(listed(canonical)[0]) == model.WORDS_PER_NODE * count
        expect_ways(canonical, tree, rng, 3)


def halves(rng):
    """Programs of six operands in both halves, and what is left of them where one is a constant."""
    for program in (2 ** 64 - 2, 2 ** 63, 2 ** 32, 2 ** 32 - 1, 0xCAFEBABE12345678, 0x8000000000000001, 1):
        names = variables(range(6))
        expect_ways(folded(program, names), lut(program, *names), rng, 1)
    whole = 0x0123456789ABCDEF
    # the first operand is the row number's highest bit
    expect_ways(lut(0x01234567, *variables(range(1, 6))), lut(whole, "1", *variables(range(1, 6))), rng, 2)
    expect_ways(lut(0x89ABCDEF, *variables(range(1, 6))), lut(whole, "0", *variables(range(1, 6))), rng, 2)
    expect_ways(lut(0x4567CDEF, *variables(range(2, 7))), lut(whole, "v2", "0", *variables(range(3, 7))), rng, 2)
    expect_ways(lut(0x012389AB, *variables(range(2, 7))), lut(whole, "v2", "1", *variables(range(3, 7))), rng, 2)


# ---- every kind at the root


def roots(rng):
    """Whatever stands over folded nodes stays, as a root and below one."""
    for name in REGISTERS:
        stays((name, *variables(range(4))), rng, 2)
        stays((name, "dc", ("Bus", "v0", "1"), ("Bus",), "0"), rng, 2)
        expect_ways((name, "v0", "1", lut(8, "v0", "v1"), ("Bus", "v1")),
                    (name, ("And", "1", "v0"), ("Not", "0"), ("And", "v0", "v1"), ("Bus", ("Xor", "0", "v1"))), rng, 2)
        expect_ways(lut(1, (name, *["v0"] * 4)), ("Not", (name, *[("Mux", "1", "v0", "v1")] * 4)), rng, 1)
    for count in (0, 1, 2, 3, 63, 64):
        members = variables([at % 7 for at in range(count)])
        stays(("Bus", *members), rng, 1)
        expect(("Bus", *members), ("Bus", *[("And", member, "1") for member in members]))
        expect(("Cycle", ("Bus", *members)), ("Cycle", ("Bus", *[lut(2, member) for member in members])))
    for cycles in (1, 2, 5):
        for below in ("v0", "0", "dc", lut(1, "v0"), ("Arg", f"p{cycles - 1}"), bit("r")):
            tree = below
            for _ in range(cycles):
                tree = ("Cycle", tree)
            stays(tree, rng, 1)
            expect_ways(lut(6, tree, "v1"), ("Xor", tree, "v1"), rng, 1)


def doubtful_operands(rng):
    """DC as an operand at each place of a Lut stays there; as a gate's operand too."""
    for count in (1, 2, 3, 6):
        for place in range(count):
            operands = variables(range(count))
            operands[place] = "dc"
            stays(lut(2 ** (2 ** count - 1), *operands) if count > 1 else lut(1, *operands), rng, 1)
    expect_ways(lut(202, "dc", "v0", "v1"), ("Mux", "dc", "v0", "v1"), rng, 2)
    expect_ways(lut(8, "dc", "dc"), ("And", "dc", "dc"), rng, 2)
    expect_ways("dc", ("Mux", "1", "dc", "v0"), rng, 2)


# ---- what the root does not reach


def strangers():
    """Nodes of every sort before the root, and between those that it reaches: they are not listed, folded or asked."""
    for name in model.KINDS:
        net = Network()
        net.any(name)
        net.var(4)
        expect("v4", net)
    for make in (*unverified().values(), *unevaluable().values()):
        net = Network()
        low = net.var(1)
        make(net)
        net.add("And", low, net.var(2))
        expect(lut(8, "v1", "v2"), net)
    # gates over buses, which number 14 would name
    for name, count in (("Not", 1), ("And", 2), ("Nor", 2), ("Xor", 2), ("Mux", 2)):
        for width in (0, 1, 2, 64):
            net = Network()
            wide = net.add("Bus", *[net.var(0)] * width)
            selector = [net.const(1)] if name == "Mux" else []
            gate = net.add(name, *selector, *[wide] * count)
            net.add("Cycle", net.add("Not", gate))
            net.add("Not", net.var(3))
            expect(lut(1, "v3"), net)
    # reached before folding and not after it: its own fault would count, and it is not listed
    expect("v0", ("Mux", "1", "v0", ("Cycle", ("Fdre", "v1", "v2", "dc", lut(6, "v3", "v4")))))


# ---- deep and shared lists ("Walks over shared nodes: one pass by number with a table")


def chain(length):
    """v0 under so many Nots."""
    net = Network()
    top = net.var(0)
    for _ in range(length):
        top = net.add("Not", top)
    return net


def chain_listed(length):
    """Its canonical list: Program 1, v0, and a Lut for each Not."""
    nodes = [KIND["Program"], 1, 0, KIND["Var"], 0, 0]
    for at in range(length):
        nodes += [KIND["Lut"], 2 * at, 2]
    return nodes, [entry for at in range(length) for entry in (0, at + 1)]


def long_chains():
    for length in (1, 2, 3, 100, 1000):
        expect(chain_listed(length), chain(length))
    # as many nodes as a list may have: the canonical list has one more than the given
    expect(chain_listed(model.MOST_NODES - 2), chain(model.MOST_NODES - 2))
    # no node is left of it where a constant is below
    net = Network()
    top = net.const(0)
    for _ in range(999):
        top = net.add("Not", top)
    expect("1", net)


def doubled(program, length):
    """The canonical list of gates of this program, each over the one below twice."""
    nodes, pool = [KIND["Program"], program, 0, KIND["Var"], 0, 0], []
    for at in range(length):
        nodes += [KIND["Lut"], len(pool), 3]
        pool += [0, at + 1, at + 1]
    return nodes, pool


def over_two(length):
    """Xors over the last two, from v0 and v1 on, and their canonical list. The root's first operand is met first, and
    so on down to that leaf from which a walk in twos comes to the root."""
    net = Network()
    last = [net.var(0), net.var(1)]
    for _ in range(length):
        last.append(net.add("Xor", *last[-2:]))
    leaves = (0, 1) if length % 2 else (1, 0)
    number = {leaf: 1 + place for place, leaf in enumerate(leaves)}
    nodes, pool = [KIND["Program"], 6, 0, KIND["Var"], leaves[0], 0, KIND["Var"], leaves[1], 0], []
    for at in range(length):
        nodes += [KIND["Lut"], len(pool), 3]
        pool += [0, *(number.get(below, below + 1) for below in (at, at + 1))]
    return net, (nodes, pool)


def many_paths():
    """2^n paths to a leaf, and each node listed once."""
    for length in (2, 10, 64, 101):
        for name, program in (("And", 8), ("Xor", 6), ("Nor", 1)):
            expect(doubled(program, length), column(name, length))
    for length in (1, 2, 3, 4, 17, 60, 121):
        given, canonical = over_two(length)
        expect(canonical, given)
    for length in (10, 41):
        # two at each height, all of them the same constant after folding
        expect("0", columns("And", length, "0", "0"))
        expect("1", column("And", length, "1"))
        expect("0", column("Xor", length, "1"))
        expect("0" if length % 2 else "1", column("Nor", length, "1"))


def wide_lists():
    """Many distinct Luts over the same variables, joined from either end."""
    names = variables(range(4))
    programs = [2 ** number for number in range(16)]
    luts = [lut(program, *names) for program in programs + [65535 - program for program in programs]]
    for join in (joined, joined_right):
        expect(renamed(join("Xor", luts)), join("Xor", luts))
    expect(("Bus", *luts), ("Bus", *luts))
    pairs = list(itertools.permutations(names, 2))
    expect(("Bus", *[lut(8, *pair) for pair in pairs]), ("Bus", *[("And", *pair) for pair in pairs]))


def renamed(tree):
    """The same tree with each Xor the Lut of its program."""
    if isinstance(tree, str) or tree[0] == "Lut":
        return tree
    return lut(6, *map(renamed, tree[1:]))


BY_HAND = (
    orders, equal_subtrees, unlike_subtrees, shared_programs, programs_gone, halves, roots, doubtful_operands,
    strangers, long_chains, many_paths, wide_lists)
