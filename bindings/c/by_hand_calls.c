#include "by_hand_calls.h"

#include "report.h"

/* ---- calls */

static int is_cleared(uint64_t number)
{
    return number != PANEL_NOT_ALIGNED && number != PANEL_OVER_LIMIT && number != PANEL_LITTLE_WORK;
}

size_t work_of(const struct list *list)
{
    return panel_work_words(list->words, list->entries);
}

void verify_is(const char *name, const struct list *list, size_t work_len, uint64_t number, uint64_t node)
{
    uint64_t answer[PANEL_VERIFY_WORDS];
    answer[0] = number;
    answer[1] = node;
    begin_case(name);
    try_verify(list, work_len, answer, is_cleared(number));
}

void evaluate_refuses(const char *name, const struct list *list, const struct lent *bytes, size_t work_len,
                      size_t out_len, uint64_t number, uint64_t node)
{
    uint64_t answer[PANEL_EVALUATE_WORDS];
    answer[0] = number;
    answer[1] = node;
    begin_case(name);
    try_evaluate(list, bytes, work_len, out_len, answer, is_cleared(number), NULL, 0);
}

void evaluate_is(const char *name, const struct list *list, const struct lent *bytes, size_t out_len,
                 const uint64_t *pairs)
{
    const uint64_t answer[PANEL_EVALUATE_WORDS] = {PANEL_DONE, 0};
    begin_case(name);
    try_evaluate(list, bytes, work_of(list), out_len, answer, 1, pairs, panel_pair_words(list->words));
}

void compare_is(const char *name, const struct list *first, const struct list *second, const uint64_t *answer)
{
    begin_case(name);
    try_compare(first, second, work_of(first) + work_of(second), answer, is_cleared(answer[0]));
}

void compare_refuses(const char *name, const struct list *first, const struct list *second, size_t work_len,
                     uint64_t number, uint64_t node)
{
    uint64_t answer[PANEL_COMPARE_WORDS] = {0, 0, PANEL_INCONCLUSIVE, 0, 0, 0, 0, 0, 0, 0};
    answer[0] = number;
    answer[1] = node;
    begin_case(name);
    try_compare(first, second, work_len, answer, is_cleared(number));
}

const uint64_t equiv[PANEL_COMPARE_WORDS] = {PANEL_DONE, 0, PANEL_EQUIV, 0, 0, 0, 0, 0, 0, 0};

void separate_is(const char *name, const struct list *list, uint32_t n, uint32_t marks, const uint64_t *answer)
{
    begin_case(name);
    try_separate(list, n, marks, work_of(list), answer, is_cleared(answer[0]));
}

void separate_refuses(const char *name, const struct list *list, uint32_t n, uint32_t marks, size_t work_len,
                      uint64_t number, uint64_t node)
{
    uint64_t answer[PANEL_SEPARATE_WORDS] = {0, 0, PANEL_CROSSING, 0, 0, 0, 0, 0, 0, 0};
    answer[0] = number;
    answer[1] = node;
    begin_case(name);
    try_separate(list, n, marks, work_len, answer, is_cleared(number));
}

const uint64_t separate[PANEL_SEPARATE_WORDS] = {PANEL_DONE, 0, PANEL_SEPARATE, 0, 0, 0, 0, 0, 0, 0};

struct canonical_room room_of(const struct list *list, size_t words, size_t entries)
{
    struct canonical_room room;
    room.work = work_of(list);
    room.words = words;
    room.entries = entries;
    return room;
}

static void canonicalize_within(const char *name, const struct list *list, struct canonical_room room,
                                struct expected_list expected)
{
    uint64_t answer[PANEL_CANONICALIZE_WORDS] = {PANEL_DONE, 0, 0, 0};
    struct canonical canonical;
    answer[2] = expected.words;
    answer[3] = expected.entries;
    canonical.nodes = expected.nodes;
    canonical.pool = expected.pool;
    begin_case(name);
    try_canonicalize(list, room, answer, 1, canonical);
}

void canonicalize_is(const char *name, const struct list *list, struct expected_list expected)
{
    canonicalize_within(name, list, room_of(list, expected.words, expected.entries), expected);
    canonicalize_within(name, list, room_of(list, expected.words + 1, expected.entries), expected);
    canonicalize_within(name, list, room_of(list, expected.words, expected.entries + 1), expected);
    canonicalize_within(name, list, room_of(list, expected.words + 7, expected.entries + 9), expected);
}

void canonicalize_refuses(const char *name, const struct list *list, struct canonical_room room, uint64_t number,
                          uint64_t node)
{
    uint64_t answer[PANEL_CANONICALIZE_WORDS] = {0, 0, 0, 0};
    const struct canonical nothing = {NULL, NULL};
    answer[0] = number;
    answer[1] = node;
    begin_case(name);
    try_canonicalize(list, room, answer, is_cleared(number), nothing);
}

/* ---- lists */

struct list zeros(size_t node_count, size_t entries)
{
    static const uint32_t words[PANEL_MOST_POOL + 1] = {0};
    return copied_list(words, PANEL_NODE_WORDS * node_count, words, entries);
}

struct list xor_of(uint32_t variables)
{
    enum { MOST = 31 };
    uint32_t nodes[2 * PANEL_NODE_WORDS * MOST];
    uint32_t pool[2 * MOST];
    uint32_t node = 0;
    uint32_t entry = 0;
    uint32_t i;
    for (i = 0; i < variables; i++, node++) {
        nodes[3 * node] = PANEL_VAR;
        nodes[3 * node + 1] = i;
        nodes[3 * node + 2] = 0;
    }
    for (i = 1; i < variables; i++, node++, entry += 2) {
        nodes[3 * node] = PANEL_XOR;
        nodes[3 * node + 1] = entry;
        nodes[3 * node + 2] = 2;
        pool[entry] = i;
        pool[entry + 1] = i == 1 ? 0 : node - 1;
    }
    return copied_list(nodes, PANEL_NODE_WORDS * node, pool, entry);
}
