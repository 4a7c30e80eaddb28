#include "by_hand.h"

#include "lent.h"
#include "panel.h"
#include "report.h"
#include "tries.h"

struct table_sample {
    const char *name;
    struct table_call call;
    uint8_t inputs[7];
    size_t count;
    uint64_t answer[PANEL_TABLE_WORDS];
};

static const struct table_sample table_samples[] = {
    {"no inputs, program 1", {EVAL_LUT, 1, 0, 0, 0}, {0}, 0, {0, 1, 0}},
    {"no inputs, program 2", {EVAL_LUT_BV, 2, 0, 0, 0}, {0}, 0, {0, 0, 0}},
    {"first input high", {EVAL_LUT, 16, 0, 0, 0}, {1, 0, 0}, 3, {0, 1, 0}},
    {"first input low", {EVAL_LUT_BV, 2, 0, 0, 0}, {1, 0, 0}, 3, {0, 1, 0}},
    {"seven inputs", {EVAL_LUT, 1, 0, 0, 0}, {0}, 7, {13, 0, 0}},
    {"seven inputs", {EVAL_LUT_BV, 1, 0, 0, 0}, {0}, 7, {13, 0, 0}},
    {"an input of 2", {EVAL_LUT, 1, 0, 0, 0}, {0, 2}, 2, {13, 0, 0}},
    {"an input of 2", {EVAL_LUT_BV, 1, 0, 0, 0}, {2, 0}, 2, {13, 0, 0}},
    {"capacity 64", {TO_BITVEC, UINT64_MAX, 64, 0, 0}, {0}, 0, {0, 64, UINT64_MAX}},
    {"capacity 65", {TO_BITVEC, 0, 65, 0, 0}, {0}, 0, {13, 0, 0}},
    {"capacity 0", {TO_BITVEC, 0, 0, 0, 0}, {0}, 0, {0, 0, 0}},
    {"1 in no bits", {TO_BITVEC, 1, 0, 0, 0}, {0}, 0, {13, 0, 0}},
    {"an operand to drop", {REMOVE_LSB_VAR, 12, 2, 0, 0}, {0}, 0, {0, 1, 2}},
    {"no operand to drop", {REMOVE_LSB_VAR, 8, 2, 0, 0}, {0}, 0, {0, 0, 0}},
    {"k = 1 takes any program", {REMOVE_LSB_VAR, 9, 1, 0, 0}, {0}, 0, {0, 0, 0}},
    {"k = 7", {REMOVE_LSB_VAR, 0, 7, 0, 0}, {0}, 0, {13, 0, 0}},
    {"held at 1", {EVAL_LUT_CONST_INPUT, 202, 2, 0, 1}, {0}, 0, {0, 12, 0}},
    {"held at 0", {EVAL_LUT_CONST_INPUT, 202, 2, 0, 0}, {0}, 0, {0, 10, 0}},
    {"held at 2", {EVAL_LUT_CONST_INPUT, 202, 2, 0, 2}, {0}, 0, {13, 0, 0}},
    {"held at 2^64 - 1", {EVAL_LUT_CONST_INPUT, 202, 2, 0, UINT64_MAX}, {0}, 0, {13, 0, 0}},
    {"held at 2^32", {EVAL_LUT_CONST_INPUT, 202, 2, 0, (uint64_t)1 << 32}, {0}, 0, {13, 0, 0}},
    {"msb 5", {EVAL_LUT_CONST_INPUT, UINT64_MAX, 5, 0, 1}, {0}, 0, {0, UINT32_MAX, 0}},
    {"msb 6", {EVAL_LUT_CONST_INPUT, 0, 6, 0, 1}, {0}, 0, {13, 0, 0}},
    {"halves", {COFACTORS_IN_MSB, 202, 3, 0, 0}, {0}, 0, {0, 12, 10}},
    {"k = 1", {COFACTORS_IN_MSB, 0, 1, 0, 0}, {0}, 0, {13, 0, 0}},
    {"k = 2^64 - 1", {COFACTORS_IN_MSB, 0, UINT64_MAX, 0, 0}, {0}, 0, {13, 0, 0}},
    {"pos 0", {SWAP_POS, 202, 3, 0, 0}, {0}, 0, {0, 172, 0}},
    {"pos 1", {SWAP_POS, 202, 3, 1, 0}, {0}, 0, {0, 226, 0}},
    {"pos 2", {SWAP_POS, 202, 3, 2, 0}, {0}, 0, {13, 0, 0}},
    {"pos 2^64 - 1", {SWAP_POS, 202, 3, UINT64_MAX, 0}, {0}, 0, {13, 0, 0}},
};

void tables_by_hand(void)
{
    size_t i;
    for (i = 0; i < COUNT(table_samples); i++) {
        const struct table_sample *sample = &table_samples[i];
        struct lent inputs = lend_copy("inputs", sample->inputs, sample->count, sizeof(uint8_t));
        begin_case(sample->name);
        try_table(&sample->call, &inputs, sample->answer);
        give_back(&inputs);
    }
}
