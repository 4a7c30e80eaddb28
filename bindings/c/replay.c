/*
 * Replays the recorded cases of one capability from standard input against libpanel_c.a, and says how many there were and
 * which of them differ: in an answer word, in what is left in lent memory, or in a word that stands around it. It stops when
 * ten differ.
 *
 * usage: replay tables | verify | evaluate | compare | separate | canonicalise < crates/replay_.../stdin
 * The status is 0 where there were cases and none differs, 1 where one does, 2 where the cases can not be read.
 *
 * What stands in a line is said in vectors/tables.py, verify.py, evaluate.py, compare.py, separate.py and canonicalise.py,
 * which make them.
 */
#include "lent.h"
#include "list.h"
#include "panel.h"
#include "report.h"
#include "tries.h"
#include "words.h"

#include <stdio.h>
#include <stdlib.h>
#include <string.h>

/* ---- the capabilities, a case each */

/* routine p size pos v, number first second, count of inputs, room for eight of them */
static void replay_table(void)
{
    enum { INPUT_ROOM = 8 };
    struct table_call call;
    struct lent inputs;
    uint64_t answer[PANEL_TABLE_WORDS];
    size_t count;
    size_t i;
    call.routine = (enum table_routine)next_word(TABLE_ROUTINES - 1);
    call.p = next_word(UINT64_MAX);
    call.size = next_word(UINT64_MAX);
    call.pos = next_word(UINT64_MAX);
    call.v = next_word(UINT64_MAX);
    next_words(answer, PANEL_TABLE_WORDS);
    count = (size_t)next_word(INPUT_ROOM);
    inputs = lend_read_u8("inputs", count);
    for (i = count; i < INPUT_ROOM; i++) {
        next_word(0);
    }
    try_table(&call, &inputs, answer);
    give_back(&inputs);
}

/* words entries work, number node, cleared, nodes, pool */
static void replay_verify(void)
{
    size_t words = next_length();
    size_t entries = next_length();
    size_t work_len = next_length();
    uint64_t answer[PANEL_VERIFY_WORDS];
    int cleared;
    struct list list;
    next_words(answer, PANEL_VERIFY_WORDS);
    cleared = (int)next_word(1);
    list = read_list(words, entries);
    try_verify(&list, work_len, answer, cleared);
    give_list_back(&list);
}

/* The root's state and value, as the line says them, are the last pair; its width is not handed out. */
static void expect_root(const uint64_t *root, const uint64_t *pairs, size_t pair_words)
{
    if (pair_words < PANEL_PAIR_WORDS || pairs[pair_words - 2] != root[0] || pairs[pair_words - 1] != root[2]) {
        bad_text("the root's answer is not its pair");
    }
}

/* So many words that are expected, in memory of their own. */
static uint64_t *read_expected(size_t count)
{
    uint64_t *words = (uint64_t *)malloc((count + 1) * sizeof(uint64_t));
    if (words == NULL) {
        bad_text("there is no memory for what is expected");
    }
    next_words(words, count);
    return words;
}

/* words entries bytes work out, number node, state width value of the root, cleared, nodes, pool, bytes, and where the
 * number is 0 the pairs */
static void replay_evaluate(void)
{
    enum { ROOT_WORDS = 3 };
    size_t words = next_length();
    size_t entries = next_length();
    size_t byte_count = next_length();
    size_t work_len = next_length();
    size_t out_len = next_length();
    uint64_t answer[PANEL_EVALUATE_WORDS];
    uint64_t root[ROOT_WORDS];
    uint64_t *pairs;
    size_t pair_words;
    int cleared;
    struct list list;
    struct lent bytes;
    next_words(answer, PANEL_EVALUATE_WORDS);
    next_words(root, ROOT_WORDS);
    cleared = (int)next_word(1);
    list = read_list(words, entries);
    bytes = lend_read_u8("bytes", byte_count);
    pair_words = answer[0] == PANEL_DONE ? panel_pair_words(words) : 0;
    if (pair_words > out_len) {
        bad_text("the pairs have no place in the output");
    }
    pairs = read_expected(pair_words);
    if (answer[0] == PANEL_DONE) {
        expect_root(root, pairs, pair_words);
    }
    try_evaluate(&list, &bytes, work_len, out_len, answer, cleared, pairs, pair_words);
    free(pairs);
    give_back(&bytes);
    give_list_back(&list);
}

/* words1 entries1 words2 entries2 work, the ten words of the answer, cleared, nodes1, pool1, nodes2, pool2 */
static void replay_compare(void)
{
    size_t words1 = next_length();
    size_t entries1 = next_length();
    size_t words2 = next_length();
    size_t entries2 = next_length();
    size_t work_len = next_length();
    uint64_t answer[PANEL_COMPARE_WORDS];
    int cleared;
    struct list first;
    struct list second;
    next_words(answer, PANEL_COMPARE_WORDS);
    cleared = (int)next_word(1);
    first = read_list(words1, entries1);
    second = read_list(words2, entries2);
    try_compare(&first, &second, work_len, answer, cleared);
    give_list_back(&first);
    give_list_back(&second);
}

/* words entries n marks work, the ten words of the answer, cleared, nodes, pool */
static void replay_separate(void)
{
    size_t words = next_length();
    size_t entries = next_length();
    uint32_t n = (uint32_t)next_word(UINT32_MAX);
    uint32_t marks = (uint32_t)next_word(UINT32_MAX);
    size_t work_len = next_length();
    uint64_t answer[PANEL_SEPARATE_WORDS];
    int cleared;
    struct list list;
    next_words(answer, PANEL_SEPARATE_WORDS);
    cleared = (int)next_word(1);
    list = read_list(words, entries);
    try_separate(&list, n, marks, work_len, answer, cleared);
    give_list_back(&list);
}

static struct canonical_room read_room(void)
{
    struct canonical_room room;
    room.work = next_length();
    room.words = next_length();
    room.entries = next_length();
    return room;
}

/* The outputs have room for what is expected of them, and only an answer is compared. */
static void expect_room(struct canonical_room room, const uint64_t *answer, int compared)
{
    if (answer[2] > room.words || answer[3] > room.entries) {
        bad_text("the canonical list has no place in the outputs");
    }
    if (compared && answer[0] != PANEL_DONE) {
        bad_text("there is a verdict on a refusal");
    }
}

/* words entries work out_words out_entries, number node node_words pool_words, verdict, cleared, nodes, pool, and where
 * the number is 0 the canonical list's nodes and pool; a verdict of 3 is not asked */
static void replay_canonicalise(void)
{
    enum { NOT_ASKED = 3 };
    size_t words = next_length();
    size_t entries = next_length();
    struct canonical_room room = read_room();
    uint64_t answer[PANEL_CANONICALIZE_WORDS];
    uint64_t verdict;
    int cleared;
    struct list list;
    struct canonical canonical;
    next_words(answer, PANEL_CANONICALIZE_WORDS);
    verdict = next_word(NOT_ASKED);
    cleared = (int)next_word(1);
    expect_room(room, answer, verdict != NOT_ASKED);
    list = read_list(words, entries);
    canonical.nodes = read_expected((size_t)answer[2]);
    canonical.pool = read_expected((size_t)answer[3]);
    if (verdict == NOT_ASKED) {
        try_canonicalize(&list, room, answer, cleared, canonical);
    } else {
        try_canonicalize_and_compare(&list, room, answer, canonical, (enum panel_verdict)verdict);
    }
    free((void *)canonical.nodes);
    free((void *)canonical.pool);
    give_list_back(&list);
}

/* ---- all cases */

struct capability {
    const char *name;
    void (*replay)(void);
};

static const struct capability capabilities[] = {
    {"tables", replay_table},
    {"verify", replay_verify},
    {"evaluate", replay_evaluate},
    {"compare", replay_compare},
    {"separate", replay_separate},
    {"canonicalise", replay_canonicalise},
};

static const struct capability *named(const char *name)
{
    size_t i;
    for (i = 0; i < sizeof capabilities / sizeof capabilities[0]; i++) {
        if (strcmp(capabilities[i].name, name) == 0) {
            return &capabilities[i];
        }
    }
    return NULL;
}

int main(int count, char **arguments)
{
    const struct capability *capability = count == 2 ? named(arguments[1]) : NULL;
    if (capability == NULL) {
        puts("usage: replay tables | verify | evaluate | compare | separate | canonicalise < CASES");
        return 2;
    }
    while (word_follows() && !enough_differ()) {
        begin_case(NULL);
        capability->replay();
    }
    if (enough_differ()) {
        puts("so many differ that no more are tried");
    }
    return end_cases();
}
