"""The rows of the table: for each call its lists (lists.py, longest.py), and what must be answered.

Expected is what vectors/model.py says; where that would take too long, what the truth tables of truth.py say. The long
rows are those of 2^20 assignments. The Rust is not run on them: what it would take is reckoned from a case with fewer.
"""
from collections import namedtuple

import lists
import longest
from cases import case, modelled
from timing import SECONDS
from truth import EQUIV, SEPARATE, Truth, compared

from model import MOST_INPUTS, MOST_NODES

# expected: a function of no arguments, since it may take a while
# fewer: where the Rust is run on another case, that one, and how many times as many evaluations this one asks
# patience: the seconds that the oracle may take, where not those of timing.py
Row = namedtuple("Row", "name case expected fewer patience")

FEW, MANY = 10, 20
MARKS = {"lowest": (0, 1, 2, 3), "highest": (16, 17, 18, 19), "spread": (2, 7, 11, 18)}
FEW_MARKS = (0, 3, 5, 8)
FEW_OF_THIRTY = [3 * place + 2 for place in range(FEW)]
# the oracle answers every node of an evaluation, each by a walk of its own; the walk from the root alone is timed
PATIENCE = 30
# doors closed, start held, nothing else
MAY_RUN = [1, 1, 0, 0, 0, 0, 0, 0, 1, 0]


def row(name, a_case, expected=None, fewer=None, patience=SECONDS):
    return Row(name, a_case, expected or (lambda: modelled(a_case)), fewer, patience)


def evaluation_of_drawn(kinds=lists.KINDS["both"]):
    return case("evaluate", lists.drawn(MANY, kinds), numbers=[1, 0] * (MANY // 2))


# ---- one list


def verify_rows():
    return [row("and", case("verify", lists.and_gate())),
            row("stop", case("verify", lists.stop())),
            row("tree", case("verify", lists.tree(FEW))),
            row("drawn", case("verify", lists.drawn(MANY))),
            row("buses", case("verify", longest.buses())),
            row("registers", case("verify", longest.registers())),
            row("shared", case("verify", longest.shared()))]


def evaluate_rows():
    return [row("and", case("evaluate", lists.and_gate(), numbers=[1, 1])),
            row("stop", case("evaluate", lists.stop(), numbers=MAY_RUN)),
            row("tree", case("evaluate", lists.tree(FEW), numbers=[1, 0] * (FEW // 2))),
            *[row(f"drawn, {name}", evaluation_of_drawn(kinds), patience=PATIENCE)
              for name, kinds in lists.KINDS.items()],
            row("shared", case("evaluate", longest.shared(), numbers=[1, 0]))]


def canonicalise_rows():
    made = {"and": lists.and_gate(), "stop": lists.stop(), "tree": lists.tree(FEW),
            "10 Nots": lists.nots(10), "100 Nots": lists.nots(100), "500 Nots": lists.nots(500),
            "1,000 Nots": lists.nots(1000), f"{MOST_NODES - 2:,} Nots": lists.nots(MOST_NODES - 2),
            "wide": longest.wide(), "folding": longest.folding(), "alike": longest.alike(), "apart": longest.apart(),
            "shared": longest.shared(spare=1)}
    return [row(name, case("canonicalise", given)) for name, given in made.items()]


# ---- two lists


def two_forms(make, inputs):
    first = make(inputs)
    return first, lists.other_form(*first)


def by_tables(truth, first, second):
    """What a comparison of two lists answers, by their truth tables."""
    return lambda: compared(truth.held(*first), truth.held(*second))


def one_leaf_changed(first, second, truth):
    """The second list with the leaf changed that shows at the highest assignment, and how many are tried till then."""
    table, found = truth.root(*first), {}
    for nodes in lists.leaves_changed(second[0]):
        answer = compared(table, truth.root(nodes, second[1]))
        if answer != EQUIV:
            found[answer[3]] = nodes, second[1]
    return found[max(found)], max(found) + 1


def compare_rows():
    truth = Truth(FEW)
    first, second = two_forms(lists.tree, FEW)
    changed, _ = one_leaf_changed(first, second, truth)
    return [row("and, its table", case("compare", lists.and_gate(), lists.and_table())),
            row("and, v0", case("compare", lists.and_gate(), lists.nots(0))),
            row("stop, its tables", case("compare", lists.stop(), lists.stop_tables())),
            row("tree, itself", case("compare", first, first)),
            row("tree, another form", case("compare", first, second), by_tables(truth, first, second)),
            row("tree, a leaf changed", case("compare", first, changed), by_tables(truth, first, changed)),
            row("shared, itself", case("compare", longest.shared(), longest.shared())),
            row("shared, its tables", case("compare", longest.shared(spare=1), longest.shared_tables()))]


def long_compare_rows():
    truth = Truth(MANY)
    trees, fewer = two_forms(lists.tree, MANY), two_forms(lists.tree, FEW)
    first, second = two_forms(lists.drawn, MANY)
    changed, tried = one_leaf_changed(first, second, truth)
    return [row("tree, another form, 2^20", case("compare", *trees), by_tables(truth, *trees),
                (case("compare", *fewer), 2 ** (MANY - FEW))),
            row("drawn, another form, 2^20", case("compare", first, second), by_tables(truth, first, second),
                (evaluation_of_drawn(), 2 * 2 ** MANY), PATIENCE),
            row("drawn, a leaf changed", case("compare", first, changed), by_tables(truth, first, changed),
                (evaluation_of_drawn(), 2 * tried), PATIENCE)]


# ---- separations


def separation(name, given, inputs, marked, truth=None, fewer=None, patience=SECONDS):
    """A row; by truth tables where they are given."""
    expected = truth and (lambda: truth.separated(truth.held(*given), marked))
    return row(name, case("separate", given, numbers=[inputs, lists.word_of(marked)]), expected, fewer, patience)


def one_idle_changed(nodes, pool, idle, marked, truth):
    """The list with the Xor changed that shows at the highest assignment, and how many are tried till then."""
    found = {}
    for changed in lists.idle_changed(nodes, idle):
        answer = truth.separated(truth.root(changed, pool), marked)
        if answer != SEPARATE:
            found[answer[3]] = changed, pool
    return found[max(found)], max(found) + 1


def few_of_thirty(truth):
    """Ten variables among thirty. They have other numbers, and so the judgement is that of the same list over ten."""
    (nodes, pool), _ = lists.with_idle(*lists.drawn(FEW), FEW_MARKS)
    over_ten = separation("", (nodes, pool), FEW, FEW_MARKS, truth)
    marked = [FEW_OF_THIRTY[number] for number in FEW_MARKS]
    among_thirty = separation("drawn, 10 of n = 30", (lists.spread(nodes, FEW_OF_THIRTY), pool), MOST_INPUTS, marked)
    return among_thirty._replace(expected=over_ten.expected)


def separate_rows():
    truth = Truth(FEW)
    given, idle = lists.with_idle(*lists.tree(FEW), FEW_MARKS)
    changed, _ = one_idle_changed(*given, idle, FEW_MARKS, truth)
    return [separation("and", lists.and_gate(), 2, [1]),
            separation("stop", lists.stop(), lists.STOP_INPUTS, [lists.RUN]),
            separation("horn", lists.horn(), lists.STOP_INPUTS, [lists.RUN]),
            separation("tree", given, FEW, FEW_MARKS, truth),
            separation("tree, an Xor changed", changed, FEW, FEW_MARKS, truth),
            few_of_thirty(truth),
            separation("shared", longest.shared(), 2, [1])]


def long_separate_rows():
    truth = Truth(MANY)
    fewer, _ = lists.with_idle(*lists.tree(FEW), FEW_MARKS)
    trees, _ = lists.with_idle(*lists.tree(MANY), MARKS["spread"])
    found = [separation("tree, 2^20", trees, MANY, MARKS["spread"], truth,
                        (separation("", fewer, FEW, FEW_MARKS).case, 2 ** (MANY - FEW)))]
    for name, marked in MARKS.items():
        given, idle = lists.with_idle(*lists.drawn(MANY), marked)
        found.append(separation(f"drawn, marks {name}, 2^20", given, MANY, marked, truth,
                                (evaluation_of_drawn(), 2 * 2 ** MANY), PATIENCE))
    changed, tried = one_idle_changed(*given, idle, marked, truth)
    return found + [separation("drawn, an Xor changed", changed, MANY, marked, truth,
                               (evaluation_of_drawn(), 2 * tried), PATIENCE)]


# ---- all of them

ROWS = {"verify": verify_rows, "evaluate": evaluate_rows, "compare": compare_rows, "separate": separate_rows,
        "canonicalise": canonicalise_rows}
LONG_ROWS = {"compare": long_compare_rows, "separate": long_separate_rows}


def rows(calls, long):
    """One after another, made when their turn comes."""
    for call in calls:
        yield from ROWS[call]()
        if long and call in LONG_ROWS:
            yield from LONG_ROWS[call]()
