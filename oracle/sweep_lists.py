"""Calls on lists for oracle/sweep: lists are drawn, and the model's outcome is held against the original's answer."""
from collections import namedtuple

import asking
import meaning
import model
from canonicalise import folding_list
from comparisons import asked, each_tree_once
from lister import drawn_list, evaluable_list, word_changed
from separations import judged_soon

Case = namedtuple("Case", "line given expected")
BYTES = [0, 0, 1, 1, 2]


def is_list(given):
    """Past numbers 1 to 5: what the original can be given."""
    try:
        model.sizes(*given)
        model.layout(*given)
    except model.Refused:
        return False
    return True


def lists(rng, *makers):
    """Lists of one of these makers; a third are damaged, where the damage leaves a list."""
    while True:
        given = rng.choice(makers)(rng)
        if rng.random() < 1 / 3:
            damaged = word_changed(rng, *given)
            given = damaged if is_list(damaged) else given
        yield given


def numbered(expected):
    """What the model says, in short."""
    return "answers" if expected[0] == 0 else f"number {expected[0]}"


def told(answer):
    """Why the original has no answer."""
    if answer.startswith("panic rests"):
        return "rests on the stand-in"
    return answer.split()[0] + "s" if answer.startswith("panic") else answer


class Sweep:
    """One call: how its cases are drawn, and how an answer of the original's is judged."""

    # what docs/DIFFERENCES.md names, of lists that the model answers
    known = frozenset()

    def judged(self, case, answer):
        ours = numbered(case.expected)
        if not asking.has_answer(answer):
            return ours, told(answer)
        if case.expected[0] != 0:
            return ours, self.said(answer)
        alike = answer == " ".join(map(str, case.expected[2:]))
        return ours, "the same" if alike else self.difference(case, answer)

    def said(self, _answer):
        return "answers"

    def difference(self, _case, _answer):
        return "another answer"

    def is_known(self, kind, build):
        if kind[0] != "answers" or kind[1] in ("the same", "late"):
            return True
        return kind[1] in self.known or (build == "checked" and kind[1] in self.known_checked)

    known_checked = frozenset()


class Verify(Sweep):
    def drawn(self, rng, count):
        for given, _ in zip(lists(rng, drawn_list, evaluable_list), range(count)):
            answer, _ = model.verify(*given, [1] * asked(given))
            yield Case(asking.one_list(given), given, [0, 0, int(answer[0] == 0)])


class Evaluate(Sweep):
    def drawn(self, rng, count):
        for given, _ in zip(lists(rng, evaluable_list, evaluable_list, drawn_list), range(count)):
            bytes_ = [rng.choice(BYTES) for _ in range(rng.choice([0, 1, 3, 6, 6]))]
            yield Case(asking.evaluation(given, bytes_), given, self.outcome(given, bytes_))

    @staticmethod
    def outcome(given, bytes_):
        """State, width and value of each node, where the model evaluates the list."""
        try:
            listed = model.evaluable(*given)
        except model.Refused as refusal:
            return [refusal.number, refusal.node]
        driven = {v: byte for v, byte in enumerate(bytes_) if byte != 2}
        words = [0, 0]
        with each_tree_once():
            for i, tree in enumerate(listed.trees):
                answered = i in listed.cycles_over and tree.kind != "Program"
                words += model.told(model.answer(tree, driven)) if answered else [model.NO_ANSWER, 0, 0]
        return words


class Compare(Sweep):
    def drawn(self, rng, count):
        for first, at in zip(lists(rng, evaluable_list, evaluable_list, drawn_list), range(count)):
            second = self.beside(rng, at, first)
            with each_tree_once():
                answer, _ = model.compare(*first, *second, [1] * asked(first, second))
            yield Case(asking.comparison(first, second), (first, second), answer)

    @staticmethod
    def beside(rng, at, first):
        """The list with a word changed, one like it, or another."""
        if at % 3 == 0:
            return evaluable_list(rng)
        try:
            with each_tree_once():
                model.gates_are_bits(model.evaluable(*first))
                second = meaning.like(rng, *first) if at % 3 == 1 else word_changed(rng, *first)
        except model.Refused:
            return first
        return second if is_list(second) else first

    def said(self, answer):
        return ("Equiv", "NotEquiv", "Inconclusive")[int(answer[0])]


class Separate(Sweep):
    def drawn(self, rng, count):
        for given, _ in zip(lists(rng, evaluable_list), range(count)):
            n = rng.choice([6, 6, 7])
            marks = rng.choice([1 << rng.randrange(n), rng.getrandbits(n), rng.getrandbits(n)])
            with each_tree_once(), judged_soon():
                answer, _ = model.separate(*given, n, marks, [1] * asked(given))
            yield Case(asking.separation(given, n, marks), given, answer)


class Canonicalise(Sweep):
    known = {"another value", "another tree", "our tree, another list", "panics"}

    def drawn(self, rng, count):
        for given, _ in zip(lists(rng, folding_list, folding_list, evaluable_list), range(count)):
            yield self.case(given)

    def case(self, given):
        return Case(asking.one_list(given), given, self.outcome(given))

    @staticmethod
    def outcome(given):
        room = [0] * 4000
        with each_tree_once():
            answer, _, nodes, pool = model.canonicalise(*given, [1] * asked(given), room, room)
        return answer + nodes[:answer[2]] + pool[:answer[3]]

    def difference(self, case, answer):
        words = list(map(int, answer.split()))
        theirs = words[2:2 + words[0]], words[2 + words[0]:]
        with each_tree_once():
            found, _ = model.compare(*case.given, *theirs, [1] * asked(case.given, theirs))
            if found[0] != 0:
                return f"a list that number {found[0]} refuses"
            if found[2] == model.NOT_EQUIV:
                return "another value"
            ours = model.canonical(model.Listed(*case.given).trees[-1])
            return "our tree, another list" if model.Listed(*theirs).trees[-1] is ours else "another tree"


SWEEPS = {"verify": Verify(), "evaluate": Evaluate(), "compare": Compare(), "separate": Separate(),
          "canonicalise": Canonicalise()}
