/* What the calls by hand over lists are written with: calls that say what they should answer, and lists. */
#ifndef BY_HAND_CALLS_H
#define BY_HAND_CALLS_H

#include "lent.h"
#include "list.h"
#include "panel.h"
#include "tries.h"

/* ---- calls; where no length is said the work space is just enough */

size_t work_of(const struct list *list);

void verify_is(const char *name, const struct list *list, size_t work_len, uint64_t number, uint64_t node);

void evaluate_refuses(const char *name, const struct list *list, const struct lent *bytes, size_t work_len,
                      size_t out_len, uint64_t number, uint64_t node);

void evaluate_is(const char *name, const struct list *list, const struct lent *bytes, size_t out_len,
                 const uint64_t *pairs);

void compare_is(const char *name, const struct list *first, const struct list *second, const uint64_t *answer);

void compare_refuses(const char *name, const struct list *first, const struct list *second, size_t work_len,
                     uint64_t number, uint64_t node);

extern const uint64_t equiv[PANEL_COMPARE_WORDS];

void separate_is(const char *name, const struct list *list, uint32_t n, uint32_t marks, const uint64_t *answer);

void separate_refuses(const char *name, const struct list *list, uint32_t n, uint32_t marks, size_t work_len,
                      uint64_t number, uint64_t node);

extern const uint64_t separate[PANEL_SEPARATE_WORDS];

/* A canonical list: node words, pool entries. */
struct expected_list {
    const uint64_t *nodes;
    size_t words;
    const uint64_t *pool;
    size_t entries;
};

/* Outputs that are just enough, then each longer than that. */
void canonicalize_is(const char *name, const struct list *list, struct expected_list expected);

void canonicalize_refuses(const char *name, const struct list *list, struct canonical_room room, uint64_t number,
                          uint64_t node);

/* Just enough work space, and outputs of these lengths. */
struct canonical_room room_of(const struct list *list, size_t words, size_t entries);

/* ---- lists */

/* So many Const nodes and pool entries, all words 0. */
struct list zeros(size_t node_count, size_t entries);

/* The Xor of so many variables, 31 at the most. */
struct list xor_of(uint32_t variables);

#endif
