"""The truth-table routines for oracle/sweep: all small arguments, those at each bound, and drawn ones."""
import itertools
from collections import namedtuple

import tables
from asking import has_answer

Case = namedtuple("Case", "line expected")
LARGEST = 2 ** 64 - 1
SMALL = range(0, 260)
SIZES = [*range(0, 9), 31, 32, 33, 63, 64, 65, 128, LARGEST - 1, LARGEST]
# the original lists 2^k rows one by one; from here on it would not end
MOST_ROWS = 20


def of(routine, *arguments):
    function = getattr(tables, routine)
    inputs = routine.startswith("eval_lut") and not routine.endswith("input")
    expected = function(arguments[0], list(arguments[1:])) if inputs else function(*arguments)
    return Case(" ".join(map(str, (routine, *arguments))), expected)


def programs(rng, k):
    """Below the bound of k operands and at it, and any."""
    bound = 2 ** 2 ** min(k, 6)
    near = [0, 1, 2, bound // 2, bound - 2, bound - 1, bound, bound + 1, 2 * bound, LARGEST - 1, LARGEST]
    return [p for p in near if p <= LARGEST] + [rng.randrange(min(bound, LARGEST) + 1), rng.getrandbits(64)]


def sized(p, k):
    """Every routine that takes a program and a size."""
    yield of("to_bitvec", p, k)
    yield of("remove_lsb_var", p, k)
    yield of("cofactors_in_msb", p, k)
    for v in (0, 1):
        yield of("eval_lut_const_input", p, k, v)
    if k < MOST_ROWS or k > 64:
        for pos in (*range(0, 8), LARGEST):
            yield of("swap_pos", p, k, pos)


def small(rng):
    for k in SIZES:
        for p in {*SMALL, *programs(rng, k)}:
            yield from sized(p, k)
    for capacity in range(0, 70):
        width = min(capacity, 64)
        for p in {2 ** min(width, 63), 2 ** width - 1, rng.getrandbits(max(width, 1))}:
            yield of("to_bitvec", p, capacity)
    for n in range(0, 8):
        for row in range(2 ** n):
            for p in (rng.getrandbits(64), 2 ** row % 2 ** 64):
                for routine in ("eval_lut", "eval_lut_bv"):
                    yield of(routine, p, *[row >> bit & 1 for bit in range(n)])


def drawn(rng, count):
    yield from small(rng)
    yield from itertools.islice(any_arguments(rng), count)


def any_arguments(rng):
    """Without end: a routine with arguments in their range and out of it."""
    while True:
        k = rng.choice([0, 1, 2, 3, 4, 5, 6, 6, 7, 8, rng.getrandbits(64)])
        p = rng.choice([rng.getrandbits(2 ** min(k, 6)), rng.getrandbits(64)])
        cases = list(sized(p, k))
        cases += [of(name, p, *[rng.randint(0, 1) for _ in range(rng.choice([1, 3, 6, 6, 7, 64, 65]))])
                  for name in ("eval_lut", "eval_lut_bv")]
        yield rng.choice(cases)


def judged(case, answer):
    routine = case.line.split()[0]
    refused = case.expected[0] != 0
    ours = f"{routine} 13" if refused else f"{routine} answers"
    if answer.startswith("panic rests"):
        return ours, "rests on the stand-in"
    if answer.startswith("panic"):
        return ours, "panics"
    if not has_answer(answer):
        return ours, answer
    alike = answer == " ".join(map(str, case.expected))
    return ours, "answers" if refused else "the same" if alike else "another answer"


# of what the model answers; where it refuses with 13 the original may do anything
KNOWN = {("eval_lut_const_input answers", "panics"), ("to_bitvec answers", "rests on the stand-in")}


def is_known(kind, _build):
    return kind[0].endswith("13") or kind[1] == "the same" or kind in KNOWN
