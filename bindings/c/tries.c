#include "tries.h"

#include "report.h"

static struct lent answer_block(size_t words)
{
    return lend_pattern("answer block", words);
}

void try_verify(const struct list *list, size_t work_len, const uint64_t *answer, int cleared)
{
    struct lent work = lend_pattern("work space", work_len);
    struct lent block = answer_block(PANEL_VERIFY_WORDS);
    panel_verify(lent_u32(&list->nodes), list->words, lent_u32(&list->pool), list->entries, lent_u64(&work), work_len,
                 lent_u64(&block));
    expect_answer(&block, answer);
    expect_left(&work, cleared);
    expect_list_unchanged(list);
    give_back(&work);
    give_back(&block);
}

void try_evaluate(const struct list *list, const struct lent *bytes, size_t work_len, size_t out_len,
                  const uint64_t *answer, int cleared, const uint64_t *pairs, size_t pair_words)
{
    struct lent work = lend_pattern("work space", work_len);
    struct lent out = lend_pattern("output", out_len);
    struct lent block = answer_block(PANEL_EVALUATE_WORDS);
    panel_evaluate(lent_u32(&list->nodes), list->words, lent_u32(&list->pool), list->entries, lent_u8(bytes), bytes->size,
                   lent_u64(&work), work_len, lent_u64(&out), out_len, lent_u64(&block));
    expect_answer(&block, answer);
    expect_words("output word", lent_u64(&out), pairs, pair_words);
    expect_unchanged(&out, pair_words * sizeof(uint64_t));
    expect_left(&work, cleared);
    expect_list_unchanged(list);
    expect_unchanged(bytes, 0);
    give_back(&work);
    give_back(&out);
    give_back(&block);
}

void try_compare(const struct list *first, const struct list *second, size_t work_len, const uint64_t *answer,
                 int cleared)
{
    struct lent work = lend_pattern("work space", work_len);
    struct lent block = answer_block(PANEL_COMPARE_WORDS);
    panel_compare(lent_u32(&first->nodes), first->words, lent_u32(&first->pool), first->entries,
                  lent_u32(&second->nodes), second->words, lent_u32(&second->pool), second->entries, lent_u64(&work),
                  work_len, lent_u64(&block));
    expect_answer(&block, answer);
    expect_left(&work, cleared);
    expect_list_unchanged(first);
    expect_list_unchanged(second);
    give_back(&work);
    give_back(&block);
}

void try_separate(const struct list *list, uint32_t n, uint32_t marks, size_t work_len, const uint64_t *answer,
                  int cleared)
{
    struct lent work = lend_pattern("work space", work_len);
    struct lent block = answer_block(PANEL_SEPARATE_WORDS);
    panel_separate(lent_u32(&list->nodes), list->words, lent_u32(&list->pool), list->entries, n, marks,
                   lent_u64(&work), work_len, lent_u64(&block));
    expect_answer(&block, answer);
    expect_left(&work, cleared);
    expect_list_unchanged(list);
    give_back(&work);
    give_back(&block);
}

/* ---- the canonicaliser, whose output the next call may read */

struct canonical_out {
    struct lent nodes;
    struct lent pool;
};

static struct canonical_out lend_out(struct canonical_room room)
{
    struct canonical_out out;
    out.nodes = lend_pattern32("output of nodes", room.words);
    out.pool = lend_pattern32("output of the pool", room.entries);
    return out;
}

static void give_out_back(struct canonical_out *out)
{
    give_back(&out->nodes);
    give_back(&out->pool);
}

static void expect_written(const struct lent *out, const uint64_t *expected, size_t count)
{
    expect_words32(out->name, lent_u32(out), expected, count);
    expect_unchanged(out, count * sizeof(uint32_t));
}

static void canonicalize_into(const struct canonical_out *out, const struct list *list, struct canonical_room room,
                              const uint64_t *answer, int cleared, struct canonical canonical)
{
    struct lent work = lend_pattern("work space", room.work);
    struct lent block = answer_block(PANEL_CANONICALIZE_WORDS);
    panel_canonicalize(lent_u32(&list->nodes), list->words, lent_u32(&list->pool), list->entries, lent_u32(&out->nodes),
                       room.words, lent_u32(&out->pool), room.entries, lent_u64(&work), room.work, lent_u64(&block));
    expect_answer(&block, answer);
    expect_written(&out->nodes, canonical.nodes, (size_t)answer[2]);
    expect_written(&out->pool, canonical.pool, (size_t)answer[3]);
    expect_left(&work, cleared);
    expect_list_unchanged(list);
    give_back(&work);
    give_back(&block);
}

static void expect_verdict(const struct list *list, const struct canonical_out *out, const uint64_t *answer,
                           enum panel_verdict verdict)
{
    size_t words = (size_t)answer[2];
    size_t entries = (size_t)answer[3];
    size_t work_len = panel_work_words(list->words, list->entries) + panel_work_words(words, entries);
    struct lent work = lend_pattern("work space", work_len);
    struct lent block = answer_block(PANEL_COMPARE_WORDS);
    uint64_t expected[] = {PANEL_DONE, 0, 0};
    expected[2] = verdict;
    panel_compare(lent_u32(&list->nodes), list->words, lent_u32(&list->pool), list->entries, lent_u32(&out->nodes), words,
                  lent_u32(&out->pool), entries, lent_u64(&work), work_len, lent_u64(&block));
    expect_words("comparison word", lent_u64(&block), expected, sizeof expected / sizeof expected[0]);
    give_back(&work);
    give_back(&block);
}

void try_canonicalize(const struct list *list, struct canonical_room room, const uint64_t *answer, int cleared,
                      struct canonical canonical)
{
    struct canonical_out out = lend_out(room);
    canonicalize_into(&out, list, room, answer, cleared, canonical);
    give_out_back(&out);
}

void try_canonicalize_and_compare(const struct list *list, struct canonical_room room, const uint64_t *answer,
                                  struct canonical canonical, enum panel_verdict verdict)
{
    struct canonical_out out = lend_out(room);
    canonicalize_into(&out, list, room, answer, 1, canonical);
    expect_verdict(list, &out, answer, verdict);
    give_out_back(&out);
}

/* ---- truth tables */

static void call_table(const struct table_call *call, const struct lent *inputs, uint64_t *answer)
{
    switch (call->routine) {
    case EVAL_LUT:
        panel_eval_lut(call->p, lent_u8(inputs), inputs->size, answer);
        break;
    case EVAL_LUT_BV:
        panel_eval_lut_bv(call->p, lent_u8(inputs), inputs->size, answer);
        break;
    case TO_BITVEC:
        panel_to_bitvec(call->p, call->size, answer);
        break;
    case REMOVE_LSB_VAR:
        panel_remove_lsb_var(call->p, call->size, answer);
        break;
    case EVAL_LUT_CONST_INPUT:
        panel_eval_lut_const_input(call->p, call->size, call->v, answer);
        break;
    case COFACTORS_IN_MSB:
        panel_cofactors_in_msb(call->p, call->size, answer);
        break;
    case SWAP_POS:
        panel_swap_pos(call->p, call->size, call->pos, answer);
        break;
    case TABLE_ROUTINES:
        fault("routine", "not known");
        break;
    }
}

void try_table(const struct table_call *call, const struct lent *inputs, const uint64_t *answer)
{
    struct lent block = answer_block(PANEL_TABLE_WORDS);
    call_table(call, inputs, lent_u64(&block));
    expect_answer(&block, answer);
    expect_unchanged(inputs, 0);
    give_back(&block);
}
