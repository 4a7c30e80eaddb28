"""A case: a call and what it is given; its words as the programs read them; what it answers, in words and in a few
letters; and what vectors/model.py says that it must answer.

The words of an answer are those of the C interface, and behind them what the call wrote: the pairs of an evaluation,
node words and pool entries of a canonical list.
"""
import sys
from collections import namedtuple

import lists

import model
from comparisons import asked, each_tree_once

CALLS = ("verify", "evaluate", "compare", "separate", "canonicalise")

# numbers: the assignment bytes of an evaluation, n and the marks of a separation
Case = namedtuple("Case", "call lists numbers")

# a list of 4,096 nodes may be as deep, and the model calls itself several times for each
sys.setrecursionlimit(40000)


def case(call, *given, numbers=()):
    return Case(call, given, list(numbers))


def words(a_case):
    """The sizes, then what they are sizes of."""
    parts = [part for each in a_case.lists for part in each]
    sizes, numbers = [len(part) for part in parts], a_case.numbers
    behind = [word for part in parts for word in part]
    if a_case.call == "evaluate":
        return sizes + [len(numbers)] + behind + numbers
    return sizes + numbers + behind


# ---- what the model says


def modelled(a_case):
    with each_tree_once():
        return MODELS[a_case.call](a_case, [0] * asked(*a_case.lists))


def verified(a_case, work):
    return model.verify(*a_case.lists[0], work)[0]


def evaluated(a_case, work):
    nodes, pool = a_case.lists[0]
    out = [0] * (2 * lists.node_count(nodes))
    (number, node, *_), _, pairs = model.evaluate(nodes, pool, a_case.numbers, work, out)
    return [number, node] + pairs


def compared(a_case, work):
    first, second = a_case.lists
    return model.compare(*first, *second, work)[0]


def separated(a_case, work):
    return model.separate(*a_case.lists[0], *a_case.numbers, work)[0]


def canonicalised(a_case, work):
    outputs = [0] * (model.WORDS_PER_NODE * model.MOST_NODES), [0] * model.MOST_POOL
    answer, _, nodes, pool = model.canonicalise(*a_case.lists[0], work, *outputs)
    return answer + nodes[:answer[2]] + pool[:answer[3]]


MODELS = {"verify": verified, "evaluate": evaluated, "compare": compared, "separate": separated,
          "canonicalise": canonicalised}

# ---- an answer in the oracle's words


def as_oracle(call, answer):
    """The words in which the oracle says the same: it knows no numbers and no node of a refusal, but yes or no."""
    return [int(answer[0] == 0)] if call == "verify" else answer[2:]


def without_widths(call, told):
    """The oracle's words without a width at each node of an evaluation, which our pairs do not have."""
    return [word for at, word in enumerate(told) if at % 3 != 1] if call == "evaluate" else told


# ---- an answer in a few letters


def in_letters(call, told):
    """What these words of the oracle's kind say."""
    if call == "verify":
        return "verified" if told[0] else "not verified"
    if call == "evaluate":
        state, value = told[-2:]
        return f"root {value}" if state == 0 else f"root fails with {state}"
    if call == "canonicalise":
        return f"{told[0] // model.WORDS_PER_NODE:,} nodes, {told[1]:,} entries"
    names = ("Equiv", "NotEquiv", "Inconclusive") if call == "compare" else ("Separate", "Crossing")
    return names[told[0]] + (f" at {told[1]:,}" if told[0] else "")
