/*
 * Shows that the replays can fail: the calls of a damaged library. Each hands on to that of the whole library, which
 * bindings/test has renamed to whole_panel_.., and then changes one bit of what the call was lent or beside it.
 *
 * The environment variable PANEL_DAMAGE says where: a part and a place, as in work:last. The parts are nodes, pool,
 * bytes, work, out and answer, nodes2 and pool2 of a comparison, and out_nodes and out_pool of a canonicaliser; the places
 * are before (the byte in front), first, middle, last, and behind (the byte after it). A part that is empty has no first,
 * middle or last byte.
 */
#include "panel.h"

#include <stdlib.h>
#include <string.h>

/* ---- the damage */

static int is_asked(const char *part, const char *place)
{
    const char *damage = getenv("PANEL_DAMAGE");
    size_t length = strlen(part);
    return damage != NULL && strncmp(damage, part, length) == 0 && damage[length] == ':'
           && strcmp(damage + length + 1, place) == 0;
}

static void damage_inside(const char *part, unsigned char *start, size_t size)
{
    if (is_asked(part, "first")) {
        start[0] ^= 1;
    }
    if (is_asked(part, "middle")) {
        start[size / 2] ^= 1;
    }
    if (is_asked(part, "last")) {
        start[size - 1] ^= 1;
    }
}

/* The inputs are lent to be read only; their owner's memory can be written all the same. */
static void damage(const char *part, const void *lent, size_t size)
{
    unsigned char *start = (unsigned char *)lent;
    if (size > 0) {
        damage_inside(part, start, size);
    }
    if (is_asked(part, "before")) {
        start[-1] ^= 1;
    }
    if (is_asked(part, "behind")) {
        start[size] ^= 1;
    }
}

static void damage_list(const uint32_t *nodes, size_t nodes_len, const uint32_t *pool, size_t pool_len)
{
    damage("nodes", nodes, nodes_len * sizeof *nodes);
    damage("pool", pool, pool_len * sizeof *pool);
}

static void damage_words(const char *part, uint64_t *words, size_t count)
{
    damage(part, words, count * sizeof *words);
}

/* ---- the calls */

void whole_panel_verify(const uint32_t *, size_t, const uint32_t *, size_t, uint64_t *, size_t, uint64_t *);

void panel_verify(const uint32_t *nodes, size_t nodes_len, const uint32_t *pool, size_t pool_len, uint64_t *work,
                  size_t work_len, uint64_t answer[PANEL_VERIFY_WORDS])
{
    whole_panel_verify(nodes, nodes_len, pool, pool_len, work, work_len, answer);
    damage_list(nodes, nodes_len, pool, pool_len);
    damage_words("work", work, work_len);
    damage_words("answer", answer, PANEL_VERIFY_WORDS);
}

void whole_panel_evaluate(const uint32_t *, size_t, const uint32_t *, size_t, const uint8_t *, size_t, uint64_t *, size_t,
                          uint64_t *, size_t, uint64_t *);

void panel_evaluate(const uint32_t *nodes, size_t nodes_len, const uint32_t *pool, size_t pool_len, const uint8_t *bytes,
                    size_t bytes_len, uint64_t *work, size_t work_len, uint64_t *out, size_t out_len,
                    uint64_t answer[PANEL_EVALUATE_WORDS])
{
    whole_panel_evaluate(nodes, nodes_len, pool, pool_len, bytes, bytes_len, work, work_len, out, out_len, answer);
    damage_list(nodes, nodes_len, pool, pool_len);
    damage("bytes", bytes, bytes_len);
    damage_words("work", work, work_len);
    damage_words("out", out, out_len);
    damage_words("answer", answer, PANEL_EVALUATE_WORDS);
}

void whole_panel_compare(const uint32_t *, size_t, const uint32_t *, size_t, const uint32_t *, size_t, const uint32_t *,
                         size_t, uint64_t *, size_t, uint64_t *);

/* Of the lists, the parts nodes and pool are the first's, nodes2 and pool2 the second's. */
void panel_compare(const uint32_t *nodes1, size_t nodes1_len, const uint32_t *pool1, size_t pool1_len,
                   const uint32_t *nodes2, size_t nodes2_len, const uint32_t *pool2, size_t pool2_len, uint64_t *work,
                   size_t work_len, uint64_t answer[PANEL_COMPARE_WORDS])
{
    whole_panel_compare(nodes1, nodes1_len, pool1, pool1_len, nodes2, nodes2_len, pool2, pool2_len, work, work_len,
                        answer);
    damage_list(nodes1, nodes1_len, pool1, pool1_len);
    damage("nodes2", nodes2, nodes2_len * sizeof *nodes2);
    damage("pool2", pool2, pool2_len * sizeof *pool2);
    damage_words("work", work, work_len);
    damage_words("answer", answer, PANEL_COMPARE_WORDS);
}

void whole_panel_separate(const uint32_t *, size_t, const uint32_t *, size_t, uint32_t, uint32_t, uint64_t *, size_t,
                          uint64_t *);

void panel_separate(const uint32_t *nodes, size_t nodes_len, const uint32_t *pool, size_t pool_len, uint32_t n,
                    uint32_t marks, uint64_t *work, size_t work_len, uint64_t answer[PANEL_SEPARATE_WORDS])
{
    whole_panel_separate(nodes, nodes_len, pool, pool_len, n, marks, work, work_len, answer);
    damage_list(nodes, nodes_len, pool, pool_len);
    damage_words("work", work, work_len);
    damage_words("answer", answer, PANEL_SEPARATE_WORDS);
}

void whole_panel_canonicalize(const uint32_t *, size_t, const uint32_t *, size_t, uint32_t *, size_t, uint32_t *, size_t,
                              uint64_t *, size_t, uint64_t *);

void panel_canonicalize(const uint32_t *nodes, size_t nodes_len, const uint32_t *pool, size_t pool_len,
                        uint32_t *out_nodes, size_t out_nodes_len, uint32_t *out_pool, size_t out_pool_len,
                        uint64_t *work, size_t work_len, uint64_t answer[PANEL_CANONICALIZE_WORDS])
{
    whole_panel_canonicalize(nodes, nodes_len, pool, pool_len, out_nodes, out_nodes_len, out_pool, out_pool_len, work,
                             work_len, answer);
    damage_list(nodes, nodes_len, pool, pool_len);
    damage("out_nodes", out_nodes, out_nodes_len * sizeof *out_nodes);
    damage("out_pool", out_pool, out_pool_len * sizeof *out_pool);
    damage_words("work", work, work_len);
    damage_words("answer", answer, PANEL_CANONICALIZE_WORDS);
}

void whole_panel_eval_lut(uint64_t, const uint8_t *, size_t, uint64_t *);

/* One truth-table routine stands for the seven, which are tried alike. */
void panel_eval_lut(uint64_t p, const uint8_t *inputs, size_t inputs_len, uint64_t answer[PANEL_TABLE_WORDS])
{
    whole_panel_eval_lut(p, inputs, inputs_len, answer);
    damage("bytes", inputs, inputs_len);
    damage_words("answer", answer, PANEL_TABLE_WORDS);
}
