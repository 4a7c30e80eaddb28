/*
 * One call of the C interface, made many times on one case and timed: what bench/run and its modules build and run.
 *
 * usage: calls CALL ROUNDS
 *
 * Standard input is one case in decimal words, as the oracle takes it too:
 *   verify, canonicalise   words entries                 node words.. pool entries..
 *   evaluate               words entries bytes           node words.. pool entries.. assignment bytes..
 *   compare                words entries words entries   node words.. pool entries.. of both lists
 *   separate               words entries n marks         node words.. pool entries..
 *   nothing                                              no call at all: what the clock takes
 * Standard output is one line: the words of the answer; what the call wrote (evaluate: the pairs; canonicalise: node
 * words and pool entries); "|" and the nanoseconds of the shortest of ROUNDS calls. Reading is not counted.
 * The status is 1 where a call answers or writes otherwise than the first did, 2 where the input is no case.
 */
#define _POSIX_C_SOURCE 199309L
#include "panel.h"

#include <inttypes.h>
#include <stdio.h>
#include <stdlib.h>
#include <string.h>
#include <time.h>

enum { MOST_SIZES = 4, MOST_ANSWER = 10 };

struct list {
    uint32_t *nodes;
    size_t words;
    uint32_t *pool;
    size_t entries;
};

/* What a call is lent to read, and its work space. */
struct lent {
    struct list first;
    struct list second;
    uint8_t *bytes;
    size_t bytes_len;
    uint32_t n;
    uint32_t marks;
    uint64_t *work;
    size_t work_len;
};

/* What a call answers and writes; each length is that of what this call writes. */
struct outcome {
    uint64_t answer[MOST_ANSWER];
    size_t answer_len;
    uint64_t *pairs;
    size_t pairs_len;
    struct list list;
};

/* ---- what is given */

static void give_up(const char *why)
{
    fprintf(stderr, "calls: %s\n", why);
    exit(2);
}

static uint64_t next_word(uint64_t most)
{
    uint64_t word;
    if (scanf("%" SCNu64, &word) != 1 || word > most) {
        give_up("a word is missing, or too large for its place");
    }
    return word;
}

/* Never none: a pointer that is lent is not null. */
static void *room(size_t count, size_t size)
{
    void *place = calloc(count + 1, size);
    if (place == NULL) {
        give_up("no memory");
    }
    return place;
}

static uint32_t *next_words(size_t count)
{
    uint32_t *words = room(count, sizeof *words);
    for (size_t at = 0; at < count; at++) {
        words[at] = (uint32_t)next_word(UINT32_MAX);
    }
    return words;
}

static struct list next_list(const uint64_t sizes[2])
{
    struct list list = {NULL, (size_t)sizes[0], NULL, (size_t)sizes[1]};
    list.nodes = next_words(list.words);
    list.pool = next_words(list.entries);
    return list;
}

static void take_one_list(struct lent *lent, const uint64_t *sizes)
{
    lent->first = next_list(sizes);
}

static void take_bytes_too(struct lent *lent, const uint64_t *sizes)
{
    lent->first = next_list(sizes);
    lent->bytes_len = (size_t)sizes[2];
    lent->bytes = room(lent->bytes_len, 1);
    for (size_t at = 0; at < lent->bytes_len; at++) {
        lent->bytes[at] = (uint8_t)next_word(UINT8_MAX);
    }
}

static void take_two_lists(struct lent *lent, const uint64_t *sizes)
{
    lent->first = next_list(sizes);
    lent->second = next_list(sizes + 2);
}

static void take_marks_too(struct lent *lent, const uint64_t *sizes)
{
    lent->first = next_list(sizes);
    lent->n = (uint32_t)sizes[2];
    lent->marks = (uint32_t)sizes[3];
}

static void take_nothing(struct lent *lent, const uint64_t *sizes)
{
    (void)lent;
    (void)sizes;
}

/* ---- the calls */

static void verify(const struct lent *lent, struct outcome *out)
{
    const struct list *list = &lent->first;
    panel_verify(list->nodes, list->words, list->pool, list->entries, lent->work, lent->work_len, out->answer);
}

static void evaluate(const struct lent *lent, struct outcome *out)
{
    const struct list *list = &lent->first;
    out->pairs_len = panel_pair_words(list->words);
    panel_evaluate(list->nodes, list->words, list->pool, list->entries, lent->bytes, lent->bytes_len, lent->work,
                   lent->work_len, out->pairs, out->pairs_len, out->answer);
}

static void compare(const struct lent *lent, struct outcome *out)
{
    const struct list *one = &lent->first;
    const struct list *other = &lent->second;
    panel_compare(one->nodes, one->words, one->pool, one->entries, other->nodes, other->words, other->pool,
                  other->entries, lent->work, lent->work_len, out->answer);
}

static void separate(const struct lent *lent, struct outcome *out)
{
    const struct list *list = &lent->first;
    panel_separate(list->nodes, list->words, list->pool, list->entries, lent->n, lent->marks, lent->work,
                   lent->work_len, out->answer);
}

static void canonicalise(const struct lent *lent, struct outcome *out)
{
    const struct list *list = &lent->first;
    panel_canonicalize(list->nodes, list->words, list->pool, list->entries, out->list.nodes,
                       PANEL_NODE_WORDS * PANEL_MOST_NODES, out->list.pool, PANEL_MOST_POOL, lent->work, lent->work_len,
                       out->answer);
    out->list.words = (size_t)out->answer[2];
    out->list.entries = (size_t)out->answer[3];
}

static void nothing(const struct lent *lent, struct outcome *out)
{
    (void)lent;
    (void)out;
}

static const struct call {
    const char *name;
    size_t sizes;
    void (*take)(struct lent *, const uint64_t *);
    void (*make)(const struct lent *, struct outcome *);
    size_t answer_len;
} CALLS[] = {
    {"verify", 2, take_one_list, verify, PANEL_VERIFY_WORDS},
    {"evaluate", 3, take_bytes_too, evaluate, PANEL_EVALUATE_WORDS},
    {"compare", 4, take_two_lists, compare, PANEL_COMPARE_WORDS},
    {"separate", 4, take_marks_too, separate, PANEL_SEPARATE_WORDS},
    {"canonicalise", 2, take_one_list, canonicalise, PANEL_CANONICALIZE_WORDS},
    {"nothing", 0, take_nothing, nothing, 0},
};

static const struct call *call_of(const char *name)
{
    for (size_t at = 0; at < sizeof CALLS / sizeof CALLS[0]; at++) {
        if (strcmp(CALLS[at].name, name) == 0) {
            return &CALLS[at];
        }
    }
    return NULL;
}

static struct lent lent_to(const struct call *call)
{
    struct lent lent = {0};
    uint64_t sizes[MOST_SIZES] = {0};
    for (size_t at = 0; at < call->sizes; at++) {
        sizes[at] = next_word(UINT32_MAX);
    }
    call->take(&lent, sizes);
    lent.work_len = panel_work_words(lent.first.words, lent.first.entries)
                    + panel_work_words(lent.second.words, lent.second.entries);
    lent.work = room(lent.work_len, sizeof *lent.work);
    return lent;
}

static struct outcome room_for(const struct call *call)
{
    struct outcome out = {{0}, call->answer_len, NULL, 0, {NULL, 0, NULL, 0}};
    out.pairs = room(PANEL_PAIR_WORDS * PANEL_MOST_NODES, sizeof *out.pairs);
    out.list.nodes = room(PANEL_NODE_WORDS * PANEL_MOST_NODES, sizeof *out.list.nodes);
    out.list.pool = room(PANEL_MOST_POOL, sizeof *out.list.pool);
    return out;
}

/* ---- the rounds */

static int64_t nanoseconds(void)
{
    struct timespec now;
    clock_gettime(CLOCK_MONOTONIC, &now);
    return (int64_t)now.tv_sec * 1000000000 + now.tv_nsec;
}

static int64_t timed(const struct call *call, const struct lent *lent, struct outcome *out)
{
    int64_t before = nanoseconds();
    call->make(lent, out);
    return nanoseconds() - before;
}

static int is_same(const struct outcome *one, const struct outcome *other)
{
    return memcmp(one->answer, other->answer, sizeof one->answer) == 0
           && memcmp(one->pairs, other->pairs, one->pairs_len * sizeof *one->pairs) == 0
           && memcmp(one->list.nodes, other->list.nodes, one->list.words * sizeof *one->list.nodes) == 0
           && memcmp(one->list.pool, other->list.pool, one->list.entries * sizeof *one->list.pool) == 0;
}

/* The shortest of so many calls. Where one answers otherwise than the first, the program ends. */
static int64_t shortest(const struct call *call, uint64_t rounds, const struct lent *lent, struct outcome *first)
{
    struct outcome again = room_for(call);
    int64_t best = timed(call, lent, first);
    for (uint64_t round = 1; round < rounds; round++) {
        int64_t took = timed(call, lent, &again);
        best = took < best ? took : best;
        if (!is_same(first, &again)) {
            fprintf(stderr, "calls: call %" PRIu64 " answers otherwise than the first\n", round);
            exit(1);
        }
    }
    return best;
}

static void tell_words(const uint32_t *words, size_t count)
{
    for (size_t at = 0; at < count; at++) {
        printf("%" PRIu32 " ", words[at]);
    }
}

static void tell_long_words(const uint64_t *words, size_t count)
{
    for (size_t at = 0; at < count; at++) {
        printf("%" PRIu64 " ", words[at]);
    }
}

static void tell(const struct outcome *out, int64_t best)
{
    tell_long_words(out->answer, out->answer_len);
    tell_long_words(out->pairs, out->pairs_len);
    tell_words(out->list.nodes, out->list.words);
    tell_words(out->list.pool, out->list.entries);
    printf("| %" PRId64 "\n", best);
}

int main(int count, char **arguments)
{
    const struct call *call = count == 3 ? call_of(arguments[1]) : NULL;
    uint64_t rounds = count == 3 ? strtoull(arguments[2], NULL, 10) : 0;
    if (call == NULL || rounds == 0) {
        give_up("usage: calls CALL ROUNDS, the case on standard input; its head says more");
    }
    /* what is taken from the system goes back to it when the program ends */
    struct lent lent = lent_to(call);
    struct outcome first = room_for(call);
    tell(&first, shortest(call, rounds, &lent, &first));
    return 0;
}
