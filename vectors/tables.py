"""Cases of the truth-table routines, with their answers (document 01, "Truth-table routines").

usage: python3 vectors/tables.py      writes crates/replay_tables/stdin and stdout

How the answers are made: from the sentences of document 01, and by no shift or mask. A program over k operands is
written out as its truth table, a dictionary from each assignment of the operands (a tuple, the most significant
operand first) to the digit of that row; the digits are those of the program's binary numeral read from its low end.
An operand is fixed, dropped or exchanged by taking those assignments, and the table left is written as a numeral
again. That p is below 2^n is read off the length of its numeral. The answers of document 01's own examples are typed
in, and must be what this computes. The last cases are the original Rust's: vectors/oracle/tables.txt has them with its
answers (oracle/sample), which must be what this computes too, or this stops.

A case is one line of 17 decimal words, as crates/replay_tables/src/rows.rt says:
  routine  p  size  pos  v  number first second  count  byte*8
The routines are numbered as in ROUTINES; size is k, msb or capacity; what a routine does not take is 0.
The same cases come out at each run: the random ones are from a fixed seed.
"""
import itertools
import os
import random
import sys

import original

ROUTINES = ["eval_lut", "eval_lut_bv", "to_bitvec", "remove_lsb_var", "eval_lut_const_input", "cofactors_in_msb",
            "swap_pos"]
LARGEST = int("1" * 64, 2)
OUT_OF_RANGE = (13, 0, 0)
MOST_OPERANDS = 6
WIDEST = 64
ROOM = 8

# ---- numerals and tables


def numeral(p):
    """The binary digits of p, the lowest first; none for 0."""
    return format(p, "b")[::-1].rstrip("0")


def from_rows(rows):
    return int("".join(rows)[::-1] or "0", 2)


def assignments(k):
    """All assignments of k operands in the order of the rows, the most significant operand first."""
    return list(itertools.product("01", repeat=k))


def table(p, k):
    """The truth table of p over k operands, or None where p has a digit past the last row or k is too large."""
    if k > MOST_OPERANDS:
        return None
    names = assignments(k)
    digits = numeral(p)
    if len(digits) > len(names):
        return None
    return dict(zip(names, digits.ljust(len(names), "0")))


def program(rows, k):
    return from_rows([rows[name] for name in assignments(k)])


# ---- the routines


def eval_lut(p, inputs):
    if len(inputs) > MOST_OPERANDS or any(b not in (0, 1) for b in inputs):
        return OUT_OF_RANGE
    row = assignments(len(inputs)).index(tuple(str(b) for b in inputs))
    return (0, int(numeral(p)[row:row + 1] or "0"), 0)


def eval_lut_bv(p, inputs):
    return eval_lut(p, list(reversed(inputs)))


def to_bitvec(p, capacity):
    if capacity > WIDEST or len(numeral(p)) > capacity:
        return OUT_OF_RANGE
    return (0, capacity, p)


def remove_lsb_var(p, k):
    if k in (0, 1):
        return (0, 0, 0)
    rows = table(p, k)
    if rows is None:
        return OUT_OF_RANGE
    if any(rows[name + ("0",)] != rows[name + ("1",)] for name in assignments(k - 1)):
        return (0, 0, 0)
    return (0, 1, program({name: rows[name + ("0",)] for name in assignments(k - 1)}, k - 1))


def half(rows, k, first):
    """The rows whose most significant operand is `first`, as a program over the others."""
    return program({name[1:]: digit for name, digit in rows.items() if name[0] == first}, k - 1)


def eval_lut_const_input(p, msb, v):
    rows = table(p, msb + 1)
    if rows is None:
        return OUT_OF_RANGE
    return (0, half(rows, msb + 1, str(v)), 0)


def cofactors_in_msb(p, k):
    rows = table(p, k)
    if k in (0, 1) or rows is None:
        return OUT_OF_RANGE
    return (0, half(rows, k, "1"), half(rows, k, "0"))


def swap_pos(p, k, pos):
    rows = table(p, k)
    if rows is None or pos + 1 >= k:
        return OUT_OF_RANGE
    here, there = k - 1 - pos, k - 2 - pos
    moved = {}
    for name, digit in rows.items():
        other = list(name)
        other[here], other[there] = name[there], name[here]
        moved[tuple(other)] = digit
    return (0, program(moved, k), 0)


# ---- the cases

rows_written = {}


def case(routine, p, size=0, pos=0, v=0, inputs=()):
    by_name = {
        "eval_lut": lambda: eval_lut(p, list(inputs)),
        "eval_lut_bv": lambda: eval_lut_bv(p, list(inputs)),
        "to_bitvec": lambda: to_bitvec(p, size),
        "remove_lsb_var": lambda: remove_lsb_var(p, size),
        "eval_lut_const_input": lambda: eval_lut_const_input(p, size, v),
        "cofactors_in_msb": lambda: cofactors_in_msb(p, size),
        "swap_pos": lambda: swap_pos(p, size, pos),
    }
    answer = by_name[routine]()
    bytes_ = list(inputs) + [0] * (ROOM - len(inputs))
    rows_written[(ROUTINES.index(routine), p, size, pos, v, *answer, len(inputs), *bytes_)] = None
    return answer


def example(expected, *args, **kwargs):
    got = case(*args, **kwargs)
    assert got == expected, (args, kwargs, got, expected)


def examples():
    """The examples of document 01, answers as they stand there."""
    example((0, 172, 0), "swap_pos", 202, 3, pos=0)
    example((0, 226, 0), "swap_pos", 202, 3, pos=1)
    example((0, 12, 10), "cofactors_in_msb", 202, 3)
    example((0, 1, 2), "remove_lsb_var", 12, 2)
    example((0, 0, 0), "remove_lsb_var", 8, 2)
    example((0, 1, 9), "remove_lsb_var", 195, 3)
    # "None for k below 2 whatever p is (this comes first)"
    for k in (0, 1):
        for p in (0, 1, 2, 3, 4, LARGEST):
            example((0, 0, 0), "remove_lsb_var", p, k)
    # "capacity 0 takes only 0, and gives width 0 and value 0"
    example((0, 0, 0), "to_bitvec", 0, 0)
    example(OUT_OF_RANGE, "to_bitvec", 1, 0)
    # "the high or low half", and the msb at which the Rust panics
    example((0, 12, 0), "eval_lut_const_input", 202, 2, v=1)
    example((0, 10, 0), "eval_lut_const_input", 202, 2, v=0)
    example((0, 2**32 - 1, 0), "eval_lut_const_input", LARGEST, 5, v=1)
    # "the first input is the high row bit in the one, the low in the other"
    example((0, 1, 0), "eval_lut", 16, inputs=(1, 0, 0))
    example((0, 1, 0), "eval_lut_bv", 2, inputs=(1, 0, 0))


def near(bound):
    """Programs at, below and above a bound, as far as they are words."""
    return [p for p in (0, 1, 2, bound // 2, bound - 2, bound - 1, bound, bound + 1, LARGEST - 1, LARGEST)
            if 0 <= p <= LARGEST]


def sizes():
    """Each number of operands that is near a limit, with the programs near its bound."""
    for k in (0, 1, 2, 3, 4, 5, 6, 7, 8, LARGEST - 1, LARGEST):
        for p in near(2 ** (2 ** min(k, 7))):
            yield k, p


def boundaries():
    for k, p in sizes():
        case("remove_lsb_var", p, k)
        case("cofactors_in_msb", p, k)
        for pos in (0, 1, 2, 3, 4, 5, max(k, 3) - 3, max(k, 2) - 2, max(k, 1) - 1, k, LARGEST):
            case("swap_pos", p, k, pos=pos)
        for v in (0, 1):
            case("eval_lut_const_input", p, k, v=v)
            case("eval_lut_const_input", p, max(k, 1) - 1, v=v)
    for capacity in list(range(0, 68)) + [LARGEST - 1, LARGEST]:
        for p in near(2 ** min(capacity, 66)):
            case("to_bitvec", p, capacity)


def inputs_cases(word):
    for routine in ("eval_lut", "eval_lut_bv"):
        # every row of every size, under two programs
        for n in range(0, MOST_OPERANDS + 1):
            for p in (word(64), word(64)):
                for name in assignments(n):
                    case(routine, p, inputs=[int(b) for b in name])
        # each byte at each place of each count, the others bits
        for n in range(0, ROOM + 1):
            case(routine, word(64), inputs=[0] * n)
            case(routine, word(64), inputs=[1] * n)
            for place in range(n):
                for b in (0, 1, 2, 255):
                    inputs = [word(1) for _ in range(n)]
                    inputs[place] = b
                    case(routine, word(64), inputs=inputs)
        for p in (0, 1, LARGEST):
            for n in (0, 1, 6, 7):
                case(routine, p, inputs=[1] * n)


def random_cases(word):
    for k in range(2, MOST_OPERANDS + 1):
        rows = len(assignments(k))
        for _ in range(16):
            for pos in range(0, k):
                case("swap_pos", word(rows), k, pos=pos)
            for v in (0, 1):
                case("eval_lut_const_input", word(rows), k - 1, v=v)
            case("cofactors_in_msb", word(rows), k)
            case("remove_lsb_var", word(rows), k)
            # each row twice, so that the last operand is ignored; then the same with one row other
            pairs = [digit * 2 for digit in format(word(rows // 2), "b").zfill(rows // 2)]
            doubled = "".join(pairs)
            case("remove_lsb_var", int(doubled, 2), k)
            at = word(6) % rows
            spoilt = doubled[:at] + ("1" if doubled[at] == "0" else "0") + doubled[at + 1:]
            case("remove_lsb_var", int(spoilt, 2), k)
    for _ in range(40):
        capacity = word(7)
        case("to_bitvec", word(min(max(capacity, 1), WIDEST)), capacity)


def from_the_original():
    for (routine, p, *rest), answer in original.cases("tables"):
        rest = list(map(int, rest))
        names = {"eval_lut_const_input": ("size", "v"), "swap_pos": ("size", "pos")}.get(routine, ("size",))
        given = {"inputs": rest} if routine in ("eval_lut", "eval_lut_bv") else dict(zip(names, rest, strict=True))
        original.agreed("tables", case(routine, int(p), **given), answer)


# ---- what kinds of answers there are


KINDS = {name: ("out of range", "answer") for name in ROUTINES}
KINDS["eval_lut"] = KINDS["eval_lut_bv"] = ("out of range", "bit 0", "bit 1")
KINDS["remove_lsb_var"] = ("out of range", "none", "smaller")


def kind(routine, answer):
    if answer[0] == 13:
        return "out of range"
    if len(KINDS[routine]) == 2:
        return "answer"
    return KINDS[routine][1 + answer[1]]


def tally():
    """How many cases each routine has of each kind of answer; each kind is there."""
    for number, name in enumerate(ROUTINES):
        kinds = [kind(name, row[5:8]) for row in rows_written if row[0] == number]
        assert all(kinds.count(k) >= 10 for k in KINDS[name]), name
        print(name.ljust(22) + ", ".join(f"{k} {kinds.count(k)}" for k in KINDS[name]), file=sys.stderr)
    print(f"{len(rows_written)} cases", file=sys.stderr)


def main():
    word = random.Random(20250101).getrandbits
    examples()
    boundaries()
    inputs_cases(word)
    random_cases(word)
    from_the_original()
    tally()
    assert len(rows_written) >= 2000
    top = os.path.join(os.path.dirname(os.path.abspath(__file__)), "..", "crates", "replay_tables")
    with open(os.path.join(top, "stdin"), "w") as out:
        for row in rows_written:
            print(*row, file=out)
    with open(os.path.join(top, "stdout"), "w") as out:
        print(f"{len(rows_written)} cases, 0 differ", file=out)


if __name__ == "__main__":
    main()
