"""What the original was seen to do, for oracle/test: the rows of docs/DIFFERENCES.md and document 01's examples.

A row is a case and its answer; one field more is the checked build's answer, where it is another. Lists are written as
terms (oracle/terms.py), each subterm as often as it is written. PANIC is a panic of the original's, STAND_IN one of a
stand-in's, where the answer would rest on it.
"""
PANIC, STAND_IN, ABORT = "panic", "stand-in", "abort"


def bus(members):
    return "(BUS " + " ".join(members) + ")"


def variables(count):
    return [f"v{number}" for number in range(count)]


def nots(count, leaf="v0"):
    return "(NOT " * count + leaf + ")" * count


EQUIV = SEPARATED = "0 0 0 0 0 0 0 0"

TABLES = [
    # document 01, Panel bench examples
    ("swap_pos 202 3 0", "0 172 0"),
    ("swap_pos 202 3 1", "0 226 0"),
    ("cofactors_in_msb 202 3", "0 12 10"),
    ("remove_lsb_var 12 2", "0 1 2"),
    ("remove_lsb_var 8 2", "0 0 0"),
    ("remove_lsb_var 195 3", "0 1 9"),
    ("remove_lsb_var 4 1", "0 0 0"),
    ("eval_lut 16 1 0 0", "0 1 0"),
    ("eval_lut_bv 2 1 0 0", "0 1 0"),
    ("eval_lut_const_input 202 2 1", "0 12 0"),
    # past the range
    ("eval_lut 1 1 0 0 0 0 0 0", "0 1 0", PANIC),
    ("eval_lut 0 1 1 1 1 1 1 1", "0 0 0", PANIC),
    ("eval_lut 1 0 0 0 0 0 0 0", "0 1 0"),
    ("eval_lut 2" + " 1" + 32 * " 0", "0 1 0", PANIC),
    ("eval_lut_bv 1 0 0 0 0 0 0 1", "0 1 0", PANIC),
    ("eval_lut_bv 1" + 64 * " 0", "0 1 0"),
    ("eval_lut_bv 1" + 65 * " 0", PANIC),
    ("to_bitvec 8 3", "error"),
    ("to_bitvec 0 65", "error"),
    ("to_bitvec 1 0", "error"),
    ("to_bitvec 0 0", STAND_IN),
    ("remove_lsb_var 16 2", PANIC),
    ("remove_lsb_var 0 7", PANIC),
    ("remove_lsb_var 0 64", PANIC),
    ("remove_lsb_var 3 65", "0 1 1", PANIC),
    ("eval_lut_const_input 0 5 0", PANIC),
    ("eval_lut_const_input 0 5 1", PANIC),
    ("eval_lut_const_input 256 2 1", "0 16 0"),
    ("eval_lut_const_input 4 0 1", "0 2 0"),
    ("eval_lut_const_input 0 6 1", PANIC),
    ("cofactors_in_msb 16 2", "0 4 0"),
    ("cofactors_in_msb 0 1", PANIC),
    ("cofactors_in_msb 0 7", PANIC),
    ("swap_pos 0 0 0", STAND_IN, PANIC),
    ("swap_pos 0 1 0", PANIC),
    ("swap_pos 16 2 0", "0 0 0"),
    ("swap_pos 0 7 0", PANIC),
    ("swap_pos 1 64 0", "0 1 0", PANIC),
    ("swap_pos 0 65 0", PANIC),
]

VERIFY = [
    ("", "1"),
    ("(LUT 1)", "1"),
    ("(LUT 2)", "0"),
    ("(LUT 4294967295 v0 v0 v0 v0 v0)", "1"),
    ("(LUT 4294967296 v0 v0 v0 v0 v0)", "0"),
    ("(LUT 18446744073709551615 v0 v0 v0 v0 v0 v0)", "1"),
    ("(LUT 0 v0 v0 v0 v0 v0 v0 v0)", "0"),
    ("(LUT)", "0"),
    ("(LUT v0)", "0"),
    ("(ARG 0)", "0"),
    ("(CYCLE (ARG 0))", "1"),
    ("(AND (ARG 0) (CYCLE (ARG 0)))", "0"),
    ("(AND 0 (ARG 0))", "0"),
    ("(NOT 5)", "1"),
    ("(BUS (BUS v0))", "0"),
    ("(BUS (NOT (BUS v0)))", "1"),
    (bus(["v0"] * 65), "1"),
]

# a term, the bytes, and the root's state, width and value
EVALUATE = [
    ("(BUS v0 v1)", "1 0", "0 2 2"),
    ("(AND false DC)", "", "0 1 0"),
    ("(NOR DC true)", "", "0 1 0"),
    ("(AND true DC)", "", "2 0 0"),
    ("(BUS DC v0)", "", "1 0 0"),
    ("(LUT 8 DC v0)", "", "2 0 0"),
    ("(AND (BUS) (MUX DC (BUS) (BUS)))", "", "0 0 0"),
    ("", "", PANIC),
    ("(NOT 5)", "", PANIC),
    ("(BUS (NOT (BUS)))", "", PANIC),
    ("(LUT 2 (NOT (BUS true false)))", "", "0 1 1"),
    ("(LUT 2 (BUS))", "", PANIC),
    ("(MUX (BUS false true) v0 v1)", "1 0", "0 1 1"),
    ("(MUX (BUS true false) v0 v1)", "1 0", "0 1 1"),
    ("(MUX (BUS false false) v0 v1)", "1 0", "0 1 0"),
    ("(MUX (BUS false false false) v0 v1)", "1 0", "0 1 1"),
    ("(MUX (BUS) v0 v1)", "1 0", "0 1 0"),
    ("(MUX v0 (BUS v0 v1) v1)", "1 0", "0 2 2"),
    ("(AND v0 (BUS v0))", "1", "0 1 1"),
    ("(AND v0 (BUS v0 v1))", "1 0", STAND_IN),
    ("(NOR v0 (BUS))", "1", STAND_IN),
    ("(XOR v0 (BUS v0 v1))", "1 0", STAND_IN),
    ("(AND DC (BUS false false))", "", "0 2 0"),
    ("(LUT 4 v0)", "0", "0 1 0"),
    ("(LUT 1 v0 v0 v0 v0 v0 v0 v0)", "0", "0 1 1"),
    ("(LUT 1 v0 v1 v1 v1 v1 v1 v1)", "1 0", "0 1 1", PANIC),
    ("(AND (LUT v0) false)", "0", PANIC),
    (bus(["true"] * 65), "", "0 65 36893488147419103231"),
    # the smallest of their kind (oracle/smallest)
    ("(LUT 2)", "", "0 1 0"),
    ("(LUT)", "", PANIC),
    ("(ARG false)", "", "4 0 0"),
    ("(BUS (BUS false))", "", "0 1 0"),
    ("(AND 0 0)", "", PANIC),
    ("(BUS 0)", "", PANIC),
    ("(XOR DC 0)", "", "2 0 0"),
    ("(REG 0 0 0 0)", "", "3 0 0"),
    ("(LUT 0 DC 0)", "", "2 0 0"),
    ("(NOT 0)", "", PANIC),
    ("(CYCLE 0)", "", PANIC),
    ("(MUX 0 0 0)", "", PANIC),
    ("(LUT 0 0)", "", PANIC),
    ("(MUX (BUS) (BUS) (BUS))", "", "0 0 0"),
    ("(AND DC (BUS))", "", "0 0 0"),
    ("(NOR DC (BUS))", "", "0 0 0"),
    ("(XOR DC (BUS))", "", "2 0 0"),
    ("(AND false (BUS))", "", STAND_IN),
]

COMPARE = [
    ("v0", "DC", "2 0 0 1 0 2 0 0"),
    ("(MUX v0 DC true)", "true", "2 1 2 0 0 0 1 1"),
    ("(MUX v0 DC true)", "false", "1 0 0 1 1 0 1 0"),
    ("(AND v0 v1)", "v0", "1 1 0 1 0 0 1 1"),
    ("false", "(AND false v5)", EQUIV),
    ("(BUS v0)", "v0", EQUIV),
    ("v0", "v1", "2 0 0 1 0 1 0 0"),
    (bus(variables(31)), "false", EQUIV),
    (bus(variables(32)), bus(["false"] * 32), EQUIV, PANIC),
    (bus(variables(33)), bus(variables(32) + ["v0"]), EQUIV, PANIC),
    (bus(variables(63)), "false", EQUIV, PANIC),
    (bus(variables(255)), "false", EQUIV, PANIC),
    (bus(variables(64)), bus(["false"] * 64), EQUIV, PANIC),
    (bus(variables(128)), bus(["false"] * 128), EQUIV, PANIC),
    (bus(variables(256)), bus(["false"] * 256), EQUIV, PANIC),
    ("false", "", EQUIV),
    ("v0", "", EQUIV),
    ("", "false", PANIC),
    ("5", "5", EQUIV),
    ("(NOT 5)", "(NOT 5)", EQUIV),
    ("0", "1", PANIC),
    ("(LUT 2 (BUS v0))", "v0", EQUIV),
    ("(AND (BUS v0) v0)", "v0", EQUIV),
    ("(LUT 4 v0)", "false", EQUIV),
    ("(BUS (BUS v0))", "v0", EQUIV),
    ("(LUT v0)", "(AND v0 v1)", PANIC),
    ("(LUT 0 v0 v0 v0 v0 v0 v0 v0)", "false", EQUIV, PANIC),
    (bus(variables(1) * 65), f"(NOT (NOT {bus(variables(1) * 65)}))", EQUIV),
    # the smallest of their kind (oracle/smallest)
    ("0", "0", EQUIV),
    ("false", "0", PANIC),
    ("false", "(LUT)", PANIC),
    ("(LUT)", "(LUT)", EQUIV),
    ("false", "(LUT 2)", EQUIV),
    ("true", "(LUT 2)", "1 0 0 1 1 0 1 0"),
    ("false", "(ARG false)", "2 0 0 1 0 4 0 0"),
    ("false", "(MUX (BUS) (BUS) (BUS))", "1 0 0 1 0 0 0 0"),
    ("false", "(REG 0 0 0 0)", "2 0 0 1 0 3 0 0"),
    ("(NOR false (BUS))", "false", STAND_IN),
]

SEPARATE = [
    ("(AND v0 v1)", 2, 2, "1 3 0 1 1 0 1 0"),
    ("(MUX v1 DC v0)", 2, 2, "1 2 2 0 0 0 1 0"),
    ("(AND v0 (XOR v1 v1))", 2, 2, SEPARATED),
]

# a term and its canonical term
CANONICALISE = [
    ("(AND v0 v1)", "(LUT 8 v0 v1)"),
    ("(MUX true v0 v1)", "v0"),
    ("(LUT 0)", PANIC),
    ("(NOT (LUT 2 true))", "(LUT 1 true)"),
    ("(LUT 8 v0 (LUT 2 true))", "(LUT 8 v0 true)"),
    ("(LUT 8 DC (LUT 2 false))", "(LUT 8 DC false)"),
    ("(BUS (NOT v0) (NOT (LUT 2 v0)))", "(BUS (LUT 1 v0) (LUT 1 v0))", PANIC),
    ("(NOT (LUT 0 false))", "(LUT 1 false)"),
    ("(NOT (AND false false))", "(LUT 1 false)"),
    ("(NOT (LUT 4 false false))", "(LUT 1 false)"),
    ("(LUT 3 v0 (LUT 3 v0))", "true"),
    ("(MUX false (NOT false) (AND false false))", "true", PANIC),
    ("(MUX false (AND v1 false) (MUX false false v1))", "false"),
    ("(LUT 5 (NOT v0) (NOR true v0))", "(LUT 1 (LUT 1 v0))", PANIC),
    ("(XOR (NOR v0 false) (NOR (MUX false v1 v0) v1))", "(LUT 6 (LUT 1 v0) (LUT 1 (LUT 1 v0) v1))", PANIC),
    ("(REG (LUT 3 v0 (LUT 3 v0)) v0 v0 v0)", "(REG true v0 v0 v0)"),
    ("(MUX (NOT (NOR false true)) (MUX true v0 false) (NOR true v0))", PANIC),
    ("(MUX false (MUX false (NOR false false) (MUX false true false)) (MUX false false false))", PANIC),
    ("(NOT (BUS v0 v1))", "(LUT 1 (BUS v0 v1))"),
    ("(AND (BUS v0 v1) (BUS v2 v3))", "(LUT 8 (BUS v0 v1) (BUS v2 v3))"),
    ("(MUX true (BUS v0) (BUS v1))", "(BUS v0)"),
    (bus(["(AND v0 true)"] + variables(32)[1:]), bus(variables(32)), PANIC),
    ("", PANIC),
    ("(LUT 2 (BUS v0 v1))", "(BUS v0 v1)", PANIC),
    ("(LUT 2 1)", "1", PANIC),
    ("(XOR v0 0)", "(LUT 6 v0 0)"),
    ("(LUT 4 v0)", "false", PANIC),
    ("(LUT 16 v0 v1)", PANIC),
    ("(LUT 0 v0 v0 v0 v0 v0 v0 v0)", PANIC),
    ("5", "5"),
    # the smallest of their kind (oracle/smallest)
    ("0", "0"),
    ("(NOT 0)", "(LUT 1 0)"),
    ("(CYCLE 0)", "(CYCLE 0)"),
    ("(REG 0 0 0 0)", "(REG 0 0 0 0)"),
    ("(MUX 0 0 0)", "(LUT 202 0 0 0)"),
    ("(LUT 0 0)", "false", PANIC),
    ("(AND false (BUS))", "false", PANIC),
    ("(NOR false (BUS))", "(LUT 1 (BUS))", PANIC),
    ("(XOR false (BUS))", "(BUS)", PANIC),
    ("(BUS (NOT (BUS)))", "(BUS (LUT 1 (BUS)))"),
    ("(AND 0 0)", "(LUT 8 0 0)"),
    ("(ARG false)", "(ARG false)", PANIC),
    ("(BUS 0)", "(BUS 0)", PANIC),
    ("(LUT)", PANIC),
    ("(LUT 4 4)", "false", PANIC),
    ("(NOT (BUS))", "(LUT 1 (BUS))"),
    ("(AND (BUS) (BUS))", "(LUT 8 (BUS) (BUS))"),
    ("(MUX false (BUS) (BUS))", "(BUS)", PANIC),
]

# a term, and the words of the original's list where these are not our list of that term
CANONICAL_WORDS = [
    ("(BUS (NOT v0) (NOT (LUT 2 v0)))", "15 6 1 1 0 3 0 0 9 0 2 9 2 2 10 4 2 0 1 0 1 2 3", PANIC),
    ("(AND true (MUX true v1 (XOR false v1)))", "6 0 1 2 0 3 1 0"),
]

# what is deep: a call, its lists, the megabytes of stack, and the answer
DEEP = [
    ("compare", (nots(4095), "v0"), 2, ABORT),
    ("compare", (nots(4095), "v0"), 3, "1 0 0 1 1 0 1 0"),
]
