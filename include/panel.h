/*
 * The network comparer's C interface: libpanel_c.a, for C99 and C++.
 *
 * What holds of every call
 *
 *   A list is two slices, each a pointer and a length in elements. The nodes are words of 32 bits, three to a node: kind,
 *   first, count. The pool holds child numbers. The last node is the root.
 *
 *   Answers come back in a block of 64-bit words that the caller lends. Its first word is a number of enum panel_number:
 *   PANEL_DONE, or why the call refused. Every word of the block is written by every call, and none behind it.
 *
 *   A call ends with an answer whatever the words in its slices are. It asks no memory of the system and keeps nothing
 *   from one call to the next. How much stack it takes is not proved (tests/stack/run shows what it was seen to take).
 *   The library calls nothing from outside but memcpy and memset.
 *
 * What the caller owes (assumed, and not checked)
 *
 *   - A pointer leads to as many elements as the length beside it says, or as the answer block has.
 *   - It is aligned for its element. It is not null, even where the length is 0: lend the address of any such element.
 *   - What a call writes (work space, output, answer block) overlaps nothing else that it was lent. What it only reads may
 *     overlap: a list may be compared with itself.
 */
#ifndef PANEL_H
#define PANEL_H

#include <stddef.h>
#include <stdint.h>

#ifdef __cplusplus
extern "C" {
#endif

/* ---- constants */

/* The first word of every answer. 15 to 18 are kept free. */
enum panel_number {
    PANEL_DONE = 0,
    PANEL_NOT_ALIGNED = 1,     /* the node words do not make whole nodes */
    PANEL_OVER_LIMIT = 2,      /* more than PANEL_MOST_NODES nodes or PANEL_MOST_POOL pool entries */
    PANEL_UNKNOWN_KIND = 3,    /* a kind above PANEL_CYCLE */
    PANEL_BAD_LAYOUT = 4,      /* a field or child count breaks the layout, or the children run past the pool */
    PANEL_BAD_CHILD = 5,       /* a child is not numbered below its node */
    PANEL_NOT_VERIFIED = 6,    /* a node breaks a rule of verification */
    PANEL_NO_ROOT = 7,         /* the list is empty, and a root is needed */
    PANEL_NOT_EVALUABLE = 8,   /* the list verifies, but a node can not be evaluated */
    PANEL_MANY_INPUTS = 9,     /* the trees differ, and over 30 variables stand below the first root */
    PANEL_LITTLE_WORK = 10,    /* less work space than panel_work_words asks */
    PANEL_OUT_OF_BOUNDS = 11,  /* n above PANEL_MOST_INPUTS, or a variable or a mark at n or above */
    PANEL_BAD_ASSIGNMENT = 12, /* more than PANEL_VARIABLES assignment bytes, or a byte above PANEL_BYTE_UNDRIVEN */
    PANEL_BAD_TABLE = 13,      /* a truth-table argument outside its range */
    PANEL_WIDE_GATE = 14,      /* a gate that is not a bit, where it should become a lookup table */
    PANEL_SHORT_OUTPUT = 19    /* the answer does not fit the output */
};

/* A node's kind, its first word */
enum panel_kind {
    PANEL_CONST = 0,   /* first is 0 or 1, count 0 */
    PANEL_PROGRAM = 1, /* first the low half, count the high half */
    PANEL_DC = 2,      /* both 0 */
    PANEL_VAR = 3,     /* first is the variable's number, 0 to 255; count 0 */
    /* from here on the children are the pool entries first to first + count - 1 */
    PANEL_NOR = 4,     /* 2 children */
    PANEL_MUX = 5,     /* 3: selector, the arm for 1, the arm for 0 */
    PANEL_AND = 6,     /* 2 */
    PANEL_XOR = 7,     /* 2 */
    PANEL_NOT = 8,     /* 1 */
    PANEL_LUT = 9,     /* a Program, then up to six operands, the most significant first */
    PANEL_BUS = 10,    /* 0 to 64, the last is bit 0 */
    PANEL_FDRE = 11,   /* registers: 4 */
    PANEL_FDSE = 12,
    PANEL_FDPE = 13,
    PANEL_FDCE = 14,
    PANEL_ARG = 15,    /* 1, a Program: the index */
    PANEL_CYCLE = 16   /* 1 */
};

/* A node's state: a value, why there is none, or that the node has no answer at all */
enum panel_state {
    PANEL_VALUE = 0,
    PANEL_UNDRIVEN = 1,
    PANEL_DONT_CARE = 2,
    PANEL_REGISTER = 3,
    PANEL_ARGUMENT = 4,
    PANEL_UNANSWERED = 5 /* a Program, or a node that the root does not reach */
};

/* What a comparison finds */
enum panel_verdict {
    PANEL_EQUIV = 0,
    PANEL_NOT_EQUIV = 1,
    PANEL_INCONCLUSIVE = 2
};

/* What a separation finds */
enum panel_judgement {
    PANEL_SEPARATE = 0,
    PANEL_CROSSING = 1
};

/* An assignment byte: what drives the variable of its place */
enum panel_byte {
    PANEL_BYTE_LOW = 0,
    PANEL_BYTE_HIGH = 1,
    PANEL_BYTE_UNDRIVEN = 2
};

enum panel_limit {
    PANEL_NODE_WORDS = 3,
    PANEL_MOST_NODES = 4096,
    PANEL_MOST_POOL = 16384,
    PANEL_VARIABLES = 256,
    PANEL_MOST_INPUTS = 30,
    PANEL_WORK_PER_NODE = 16,
    PANEL_WORK_PER_POOL = 2,
    PANEL_PAIR_WORDS = 2
};

/* How many words each call answers with */
enum panel_answer_words {
    PANEL_VERIFY_WORDS = 2,
    PANEL_EVALUATE_WORDS = 2,
    PANEL_COMPARE_WORDS = 10,
    PANEL_SEPARATE_WORDS = 10,
    PANEL_CANONICALIZE_WORDS = 4,
    PANEL_TABLE_WORDS = 3
};

/* ---- how much to lend */

/*
 * The words of work space that one list asks; a call over two lists asks the sum of both. Work space is scratch: what
 * stands in it before a call makes no difference. A call leaves it unchanged where it answers 1, 2 or 10, and all zeros,
 * the whole of what was lent, in every other case.
 */
static inline size_t panel_work_words(size_t nodes_len, size_t pool_len)
{
    return PANEL_WORK_PER_NODE * (nodes_len / PANEL_NODE_WORDS) + PANEL_WORK_PER_POOL * pool_len;
}

/* The words of output that evaluating a list asks: a pair for each node. */
static inline size_t panel_pair_words(size_t nodes_len)
{
    return PANEL_PAIR_WORDS * (nodes_len / PANEL_NODE_WORDS);
}

/* ---- lists */

/*
 * Whether a list is laid out as it should be and keeps the rules of verification. An empty list does.
 *
 * answer: number, node.
 * Numbers in the order in which they are asked: 1, 2, 10; then 3, 4 and 5 at the lowest faulty node, its lowest number if
 * it has two; then 6, at the lowest faulty node that the root reaches. Otherwise 0. The node is 0 but for 3 to 6.
 * Left behind: the work space as said at panel_work_words; nodes and pool are only read.
 */
void panel_verify(const uint32_t *nodes, size_t nodes_len, const uint32_t *pool, size_t pool_len, uint64_t *work,
                  size_t work_len, uint64_t answer[PANEL_VERIFY_WORDS]);

/*
 * Every node's answer under one assignment. Byte v drives variable v (enum panel_byte); a variable past the bytes is
 * undriven.
 *
 * out: a pair for each node, in node order: a state of enum panel_state, then the value, which is 0 unless the state is
 * PANEL_VALUE. The root's answer is the pair of the last node, at panel_pair_words(nodes_len) - 2. A value is as wide as
 * its node, which the pair does not say; its bits above that are 0.
 * answer: number, node.
 * Numbers in the order in which they are asked: those of panel_verify; 7 for an empty list; 8 at the lowest node that the
 * root reaches and that can not be evaluated; 12, which looks at every byte, also where no node has that variable; 19
 * where out has fewer than panel_pair_words(nodes_len) words. The node is 0 but for 3 to 6 and 8.
 * Left behind: the work space as said at panel_work_words; out behind the pairs as it was, and all of it where the call
 * refuses; nodes, pool and bytes are only read.
 */
void panel_evaluate(const uint32_t *nodes, size_t nodes_len, const uint32_t *pool, size_t pool_len, const uint8_t *bytes,
                    size_t bytes_len, uint64_t *work, size_t work_len, uint64_t *out, size_t out_len,
                    uint64_t answer[PANEL_EVALUATE_WORDS]);

/*
 * Whether two lists answer alike. Equal trees are PANEL_EQUIV. Otherwise assignments are tried from 0 on, where bit j of an
 * assignment's index drives the j-th smallest variable below the first root and the second list's other variables are
 * undriven. The first at which a side has no value, or the sides' values or widths differ, decides: PANEL_INCONCLUSIVE in
 * the one case, PANEL_NOT_EQUIV in the other. Where none decides, PANEL_EQUIV.
 *
 * answer: number, node; verdict, index; state, width and value of the first root at that index, and of the second. Width
 * and value are 0 unless the state is PANEL_VALUE; behind PANEL_EQUIV all is 0. A refusal's verdict is
 * PANEL_INCONCLUSIVE, and all behind it 0.
 * Numbers in the order in which they are asked: 1 and 2 of the first list, 1 and 2 of the second; 10, over both lists; then
 * 3 to 8 of the first list as in panel_evaluate, and 3 to 8 of the second; 9, unless the trees are equal. The node is
 * numbered in its own list, and is 0 but for 3 to 6 and 8.
 * Left behind: the work space as said at panel_work_words; the lists are only read.
 */
void panel_compare(const uint32_t *nodes1, size_t nodes1_len, const uint32_t *pool1, size_t pool1_len,
                   const uint32_t *nodes2, size_t nodes2_len, const uint32_t *pool2, size_t pool2_len, uint64_t *work,
                   size_t work_len, uint64_t answer[PANEL_COMPARE_WORDS]);

/*
 * Whether what a list answers depends on its run variables: those v below n for which bit v of marks is 1. Bit v of an
 * assignment's index drives variable v, for 2^n assignments. PANEL_CROSSING is found at the lowest that answers
 * otherwise than the same assignment with its run bits cleared: another value, a failure on one side alone, or another
 * failure. Where none does, PANEL_SEPARATE. A mark may stand at a variable that the list does not have.
 *
 * answer: number, node; judgement, index; state, width and value of the root at that index, and at that index with its
 * run bits cleared. Width and value are 0 unless the state is PANEL_VALUE; behind PANEL_SEPARATE all is 0. A refusal's
 * judgement is PANEL_CROSSING, and all behind it 0.
 * Numbers in the order in which they are asked: 1, 2, 10; then 3 to 8 as in panel_evaluate; 11 where n is above
 * PANEL_MOST_INPUTS, a variable at n or above stands anywhere in the list, reached by the root or not, or a mark stands
 * at bit n or above. The node is 0 but for 3 to 6 and 8.
 * Left behind: the work space as said at panel_work_words; nodes and pool are only read.
 */
void panel_separate(const uint32_t *nodes, size_t nodes_len, const uint32_t *pool, size_t pool_len, uint32_t n,
                    uint32_t marks, uint64_t *work, size_t work_len, uint64_t answer[PANEL_SEPARATE_WORDS]);

/*
 * The canonical list of a list, written to two outputs. Mux, And, Xor, Nor and Not become Luts of programs 202, 8, 6, 1
 * and 1; then each Lut is folded, those below it first, until nothing more can be: a constant operand is dropped, as is
 * one that no row depends on, and a Lut that is a constant or its only operand gives way to it. The list holds each
 * distinct subtree below the root once, Programs included, children before parents, left to right; the children of a
 * node stand in the pool behind those of the node before it. Equal operands are not merged.
 *
 * out_nodes, out_pool: the canonical list's node words and pool entries, from the first place on. It may be longer than
 * the given list: a Not has one child, its Lut two. PANEL_NODE_WORDS * PANEL_MOST_NODES words and PANEL_MOST_POOL entries
 * hold any answer.
 * answer: number, node; how many words of out_nodes the list takes, how many of out_pool. Refused, both are 0.
 * Numbers in the order in which they are asked: 1, 2, 10; then 3 to 8 as in panel_evaluate; 14 at the lowest gate
 * (PANEL_NOR to PANEL_NOT) that the root reaches and that is not a bit, be it folded away or not; 19 where an output is
 * shorter than its part of the answer, or the canonical list is above PANEL_MOST_NODES nodes or PANEL_MOST_POOL entries,
 * however long the outputs are. The node is 0 but for 3 to 6, 8 and 14.
 * Left behind: the work space as said at panel_work_words; each output behind its part of the answer as it was, and all
 * of both where the call refuses; nodes and pool are only read.
 */
void panel_canonicalize(const uint32_t *nodes, size_t nodes_len, const uint32_t *pool, size_t pool_len,
                        uint32_t *out_nodes, size_t out_nodes_len, uint32_t *out_pool, size_t out_pool_len,
                        uint64_t *work, size_t work_len, uint64_t answer[PANEL_CANONICALIZE_WORDS]);

/* ---- truth tables */

/*
 * A program over k operands is a word whose bit r is the table's row r; k is at most 6 and the program below 2^(2^k).
 * Each routine answers a number, PANEL_DONE or PANEL_BAD_TABLE, and two words more; refused, they are 0 and 0. Any word
 * may come in as an argument.
 */

/*
 * The row of program p that the inputs name, the first input being the row number's highest bit.
 * answer: number, the bit, 0. Refused: more than six inputs, or one above 1. Any p will do.
 */
void panel_eval_lut(uint64_t p, const uint8_t *inputs, size_t inputs_len, uint64_t answer[PANEL_TABLE_WORDS]);

/* The same, the first input being the row number's lowest bit. */
void panel_eval_lut_bv(uint64_t p, const uint8_t *inputs, size_t inputs_len, uint64_t answer[PANEL_TABLE_WORDS]);

/*
 * p as a vector of `capacity` bits.
 * answer: number, width, value. Refused: a capacity above 64, or p not below 2^capacity.
 */
void panel_to_bitvec(uint64_t p, uint64_t capacity, uint64_t answer[PANEL_TABLE_WORDS]);

/*
 * The program without its lowest operand, where no row depends on it.
 * answer: number, 1, the program over k - 1 operands; or number, 0, 0 where there is none, which is so for any p where k
 * is below 2. Refused: k above 6, or p out of range for a k of 2 or more.
 */
void panel_remove_lsb_var(uint64_t p, uint64_t k, uint64_t answer[PANEL_TABLE_WORDS]);

/*
 * The program over msb + 1 operands with its highest operand held at v: its high half for 1, its low half for 0.
 * answer: number, the program over msb operands, 0. Refused: msb above 5, p out of range, or v above 1.
 */
void panel_eval_lut_const_input(uint64_t p, uint64_t msb, uint64_t v, uint64_t answer[PANEL_TABLE_WORDS]);

/*
 * Both halves of a program over k operands.
 * answer: number, the high half, the low half. Refused: k below 2 or above 6, or p out of range.
 */
void panel_cofactors_in_msb(uint64_t p, uint64_t k, uint64_t answer[PANEL_TABLE_WORDS]);

/*
 * The program after its operands pos and pos + 1, counted from the lowest, change places.
 * answer: number, the program over k operands, 0. Refused: k above 6, pos + 1 not below k, or p out of range.
 */
void panel_swap_pos(uint64_t p, uint64_t k, uint64_t pos, uint64_t answer[PANEL_TABLE_WORDS]);

#ifdef __cplusplus
}
#endif

#endif
