/* One call each, tried: what is lent, the call, and what is expected of everything that was lent. */
#ifndef TRIES_H
#define TRIES_H

#include "lent.h"
#include "list.h"
#include "panel.h"

/* `cleared` is whether the work space is to be all zeros afterwards, and otherwise unchanged. */
void try_verify(const struct list *list, size_t work_len, const uint64_t *answer, int cleared);

/* `pairs` are the first `pair_words` words that are expected in the output; what is behind them is to be unchanged. */
void try_evaluate(const struct list *list, const struct lent *bytes, size_t work_len, size_t out_len,
                  const uint64_t *answer, int cleared, const uint64_t *pairs, size_t pair_words);

void try_compare(const struct list *first, const struct list *second, size_t work_len, const uint64_t *answer,
                 int cleared);

void try_separate(const struct list *list, uint32_t n, uint32_t marks, size_t work_len, const uint64_t *answer,
                  int cleared);

/* How much is lent to a canonicaliser: work space, and places of the two outputs. */
struct canonical_room {
    size_t work;
    size_t words;
    size_t entries;
};

/* A canonical list that is expected; as many words of each as the answer says. */
struct canonical {
    const uint64_t *nodes;
    const uint64_t *pool;
};

/* What is behind the list in either output is to be unchanged. */
void try_canonicalize(const struct list *list, struct canonical_room room, const uint64_t *answer, int cleared,
                      struct canonical canonical);

/* The same, and then a comparison of the given list with what was written. */
void try_canonicalize_and_compare(const struct list *list, struct canonical_room room, const uint64_t *answer,
                                  struct canonical canonical, enum panel_verdict verdict);

enum table_routine {
    EVAL_LUT,
    EVAL_LUT_BV,
    TO_BITVEC,
    REMOVE_LSB_VAR,
    EVAL_LUT_CONST_INPUT,
    COFACTORS_IN_MSB,
    SWAP_POS,
    TABLE_ROUTINES
};

/* What a truth-table routine is given; a routine takes of it what it has an argument for. */
struct table_call {
    enum table_routine routine;
    uint64_t p;
    uint64_t size; /* k, msb or capacity */
    uint64_t pos;
    uint64_t v;
};

void try_table(const struct table_call *call, const struct lent *inputs, const uint64_t *answer);

#endif
