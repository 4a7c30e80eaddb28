#include "by_hand.h"

#include "by_hand_calls.h"

/* ---- small lists, each through every call */

struct sample {
    const char *name;
    uint32_t nodes[12];
    size_t words;
    uint32_t pool[4];
    size_t entries;
    uint64_t verify[2];   /* number and node that verifying answers */
    uint64_t evaluate[2]; /* and every other call */
};

static const struct sample samples[] = {
    {"an empty list", {0}, 0, {0}, 0, {0, 0}, {7, 0}},
    {"one node word", {0}, 1, {0}, 0, {1, 0}, {1, 0}},
    {"five node words", {3, 0, 0, 3, 0}, 5, {0}, 0, {1, 0}, {1, 0}},
    {"kind 17", {17, 0, 0}, 3, {0}, 0, {3, 0}, {3, 0}},
    {"kind 17 behind a variable", {3, 0, 0, 17, 0, 0}, 6, {0}, 0, {3, 1}, {3, 1}},
    {"constant 2", {PANEL_CONST, 2, 0}, 3, {0}, 0, {4, 0}, {4, 0}},
    {"variable 256", {PANEL_VAR, 256, 0}, 3, {0}, 0, {4, 0}, {4, 0}},
    {"children past the pool", {3, 0, 0, PANEL_NOT, 0, 1}, 6, {0}, 0, {4, 1}, {4, 1}},
    {"a Not over itself", {PANEL_NOT, 0, 1}, 3, {0}, 1, {5, 0}, {5, 0}},
    {"a Lut without children", {PANEL_LUT, 0, 0}, 3, {0}, 0, {6, 0}, {6, 0}},
    {"a program too large", {PANEL_PROGRAM, 2, 0, PANEL_LUT, 0, 1}, 6, {0}, 1, {6, 1}, {6, 1}},
    {"an Arg without a Cycle", {PANEL_PROGRAM, 0, 0, PANEL_ARG, 0, 1}, 6, {0}, 1, {6, 1}, {6, 1}},
    {"a Program at the root", {PANEL_PROGRAM, 8, 0}, 3, {0}, 0, {0, 0}, {8, 0}},
    {"a Not of a Program", {PANEL_PROGRAM, 8, 0, PANEL_NOT, 0, 1}, 6, {0}, 1, {0, 0}, {8, 1}},
};

static struct list list_of(const struct sample *sample)
{
    return copied_list(sample->nodes, sample->words, sample->pool, sample->entries);
}

/* One word of work space too little. */
static struct canonical_room little_room(const struct list *list)
{
    struct canonical_room room = room_of(list, 30, 30);
    room.work--;
    return room;
}

static void try_sample(const struct sample *sample, const struct list *variable, const struct lent *bytes)
{
    struct list list = list_of(sample);
    size_t work = work_of(&list);
    size_t both = work + work_of(variable);
    size_t out = panel_pair_words(list.words);
    uint64_t number = sample->evaluate[0];
    uint64_t node = sample->evaluate[1];
    verify_is(sample->name, &list, work, sample->verify[0], sample->verify[1]);
    evaluate_refuses(sample->name, &list, bytes, work, out, number, node);
    compare_refuses(sample->name, &list, variable, both, number, node);
    compare_refuses(sample->name, variable, &list, both, number, node);
    separate_refuses(sample->name, &list, 30, 1, work, number, node);
    canonicalize_refuses(sample->name, &list, room_of(&list, 0, 0), number, node);
    canonicalize_refuses(sample->name, &list, room_of(&list, 30, 30), number, node);
    if (work > 0 && number != PANEL_NOT_ALIGNED) {
        verify_is(sample->name, &list, work - 1, PANEL_LITTLE_WORK, 0);
        evaluate_refuses(sample->name, &list, bytes, work - 1, out, PANEL_LITTLE_WORK, 0);
        compare_refuses(sample->name, &list, variable, both - 1, PANEL_LITTLE_WORK, 0);
        separate_refuses(sample->name, &list, 30, 1, work - 1, PANEL_LITTLE_WORK, 0);
        canonicalize_refuses(sample->name, &list, little_room(&list), PANEL_LITTLE_WORK, 0);
    }
    give_list_back(&list);
}

static void small_lists(void)
{
    const uint32_t nodes[] = {PANEL_VAR, 0, 0};
    struct list variable = copied_list(nodes, COUNT(nodes), NULL, 0);
    struct lent none = lend("bytes", 0, sizeof(uint8_t));
    size_t i;
    for (i = 0; i < COUNT(samples); i++) {
        try_sample(&samples[i], &variable, &none);
    }
    give_back(&none);
    give_list_back(&variable);
}

/* ---- lists at the limits */

static void limit_is(const char *name, size_t node_count, size_t entries, uint64_t number)
{
    struct list list = zeros(node_count, entries);
    struct list one = zeros(1, 0);
    const uint64_t low[] = {PANEL_CONST, 0, 0};
    const struct expected_list root = {low, COUNT(low), NULL, 0};
    verify_is(name, &list, work_of(&list), number, 0);
    if (number == PANEL_DONE) {
        compare_is(name, &list, &one, equiv);
        separate_is(name, &list, 0, 0, separate);
        canonicalize_is(name, &list, root);
    } else {
        compare_refuses(name, &list, &one, work_of(&list) + work_of(&one), number, 0);
        compare_refuses(name, &one, &list, 0, number, 0);
        separate_refuses(name, &list, 31, 1, 0, number, 0);
        canonicalize_refuses(name, &list, room_of(&list, 3, 0), number, 0);
        canonicalize_refuses(name, &list, room_of(&one, 0, 0), number, 0);
    }
    give_list_back(&list);
    give_list_back(&one);
}

static void limits(void)
{
    limit_is("4,096 nodes", PANEL_MOST_NODES, 0, PANEL_DONE);
    limit_is("4,097 nodes", PANEL_MOST_NODES + 1, 0, PANEL_OVER_LIMIT);
    limit_is("16,384 pool entries", 1, PANEL_MOST_POOL, PANEL_DONE);
    limit_is("16,385 pool entries", 1, PANEL_MOST_POOL + 1, PANEL_OVER_LIMIT);
}

/* ---- evaluating */

static void assignments(void)
{
    const uint32_t nodes[] = {PANEL_VAR, 0, 0};
    const uint64_t high[] = {PANEL_VALUE, 1};
    const uint64_t undriven[] = {PANEL_UNDRIVEN, 0};
    const uint8_t one[] = {PANEL_BYTE_HIGH};
    const uint8_t three[] = {PANEL_BYTE_HIGH, 3};
    const uint8_t many[PANEL_VARIABLES + 1] = {PANEL_BYTE_HIGH};
    struct list list = copied_list(nodes, COUNT(nodes), NULL, 0);
    struct lent none = lend("bytes", 0, sizeof(uint8_t));
    struct lent driven = lend_copy("bytes", one, COUNT(one), sizeof(uint8_t));
    struct lent bad = lend_copy("bytes", three, COUNT(three), sizeof(uint8_t));
    struct lent most = lend_copy("bytes", many, PANEL_VARIABLES, sizeof(uint8_t));
    struct lent over = lend_copy("bytes", many, COUNT(many), sizeof(uint8_t));
    evaluate_is("no bytes", &list, &none, 2, undriven);
    evaluate_is("one byte", &list, &driven, 2, high);
    evaluate_is("256 bytes, output to spare", &list, &most, 7, high);
    evaluate_refuses("a byte of 3", &list, &bad, 16, 2, PANEL_BAD_ASSIGNMENT, 0);
    evaluate_refuses("257 bytes", &list, &over, 16, 2, PANEL_BAD_ASSIGNMENT, 0);
    evaluate_refuses("12 before 19", &list, &bad, 16, 0, PANEL_BAD_ASSIGNMENT, 0);
    evaluate_refuses("output one word short", &list, &driven, 16, 1, PANEL_SHORT_OUTPUT, 0);
    evaluate_refuses("no output", &list, &driven, 16, 0, PANEL_SHORT_OUTPUT, 0);
    give_list_back(&list);
    give_back(&none);
    give_back(&driven);
    give_back(&bad);
    give_back(&most);
    give_back(&over);
}

/* Bus(v0, v1) at 1, 0 is 2; And(false, DC) is 0 and And(true, DC) fails with 2. */
static void values(void)
{
    const uint32_t pool[] = {0, 1};
    const uint32_t bus[] = {PANEL_VAR, 0, 0, PANEL_VAR, 1, 0, PANEL_BUS, 0, 2};
    const uint32_t low[] = {PANEL_CONST, 0, 0, PANEL_DC, 0, 0, PANEL_AND, 0, 2};
    const uint32_t high[] = {PANEL_CONST, 1, 0, PANEL_DC, 0, 0, PANEL_AND, 0, 2};
    const uint64_t bus_pairs[] = {PANEL_VALUE, 1, PANEL_VALUE, 0, PANEL_VALUE, 2};
    const uint64_t low_pairs[] = {PANEL_VALUE, 0, PANEL_DONT_CARE, 0, PANEL_VALUE, 0};
    const uint64_t high_pairs[] = {PANEL_VALUE, 1, PANEL_DONT_CARE, 0, PANEL_DONT_CARE, 0};
    const uint8_t given[] = {PANEL_BYTE_HIGH, PANEL_BYTE_LOW};
    struct lent bytes = lend_copy("bytes", given, COUNT(given), sizeof(uint8_t));
    struct list lists[3];
    size_t i;
    lists[0] = copied_list(bus, COUNT(bus), pool, COUNT(pool));
    lists[1] = copied_list(low, COUNT(low), pool, COUNT(pool));
    lists[2] = copied_list(high, COUNT(high), pool, COUNT(pool));
    evaluate_is("Bus(v0, v1)", &lists[0], &bytes, 6, bus_pairs);
    evaluate_is("And(false, DC)", &lists[1], &bytes, 6, low_pairs);
    evaluate_is("And(true, DC)", &lists[2], &bytes, 6, high_pairs);
    for (i = 0; i < COUNT(lists); i++) {
        give_list_back(&lists[i]);
    }
    give_back(&bytes);
}

/* ---- comparing */

static void verdicts(void)
{
    const uint32_t pool[] = {0, 1};
    const uint32_t and_nodes[] = {PANEL_VAR, 0, 0, PANEL_VAR, 1, 0, PANEL_AND, 0, 2};
    const uint32_t dc_nodes[] = {PANEL_DC, 0, 0};
    const uint64_t at_1[] = {PANEL_DONE, 0, PANEL_NOT_EQUIV, 1, PANEL_VALUE, 1, 0, PANEL_VALUE, 1, 1};
    const uint64_t at_0[] = {PANEL_DONE, 0, PANEL_INCONCLUSIVE, 0, PANEL_VALUE, 1, 0, PANEL_DONT_CARE, 0, 0};
    struct list gate = copied_list(and_nodes, COUNT(and_nodes), pool, COUNT(pool));
    struct list variable = copied_list(and_nodes, PANEL_NODE_WORDS, NULL, 0);
    struct list dc = copied_list(dc_nodes, COUNT(dc_nodes), NULL, 0);
    struct list empty = copied_list(NULL, 0, NULL, 0);
    compare_is("And(v0, v1) against v0", &gate, &variable, at_1);
    compare_is("v0 against DC", &variable, &dc, at_0);
    compare_is("DC against itself", &dc, &dc, equiv);
    compare_refuses("two empty lists", &empty, &empty, 0, PANEL_NO_ROOT, 0);
    give_list_back(&gate);
    give_list_back(&variable);
    give_list_back(&dc);
    give_list_back(&empty);
}

static void many_variables(void)
{
    const uint64_t at_1[] = {PANEL_DONE, 0, PANEL_NOT_EQUIV, 1, PANEL_VALUE, 1, 1, PANEL_VALUE, 1, 0};
    struct list low = zeros(1, 0);
    struct list thirty = xor_of(30);
    struct list more = xor_of(31);
    compare_is("30 variables, a difference at 1", &thirty, &low, at_1);
    compare_refuses("31 variables, unequal trees", &more, &low, work_of(&more) + work_of(&low), PANEL_MANY_INPUTS, 0);
    compare_is("31 variables, equal trees", &more, &more, equiv);
    give_list_back(&low);
    give_list_back(&thirty);
    give_list_back(&more);
}

/* ---- all of them */

void lists_by_hand(void)
{
    small_lists();
    limits();
    assignments();
    values();
    verdicts();
    many_variables();
}
