#include "by_hand.h"

#include "by_hand_calls.h"

/* ---- document 01's examples, n = 2 and v1 marked */

static void examples(void)
{
    const uint32_t pool[] = {0, 1, 1, 2, 0, 2, 0, 1, 1};
    /* v0, v1; And(v0, v1) is the third node. v0, v1, DC; Mux(v1, DC, v0). v0, v1, Xor(v1, v1); And(v0, it). */
    const uint32_t both[] = {PANEL_VAR, 0, 0, PANEL_VAR, 1, 0, PANEL_AND, 0, 2};
    const uint32_t chosen[] = {PANEL_VAR, 0, 0, PANEL_VAR, 1, 0, PANEL_DC, 0, 0, PANEL_MUX, 2, 3};
    const uint32_t idle[] = {PANEL_VAR, 0, 0, PANEL_VAR, 1, 0, PANEL_XOR, 7, 2, PANEL_AND, 4, 2};
    const uint64_t at_3[] = {PANEL_DONE, 0, PANEL_CROSSING, 3, PANEL_VALUE, 1, 1, PANEL_VALUE, 1, 0};
    const uint64_t at_2[] = {PANEL_DONE, 0, PANEL_CROSSING, 2, PANEL_DONT_CARE, 0, 0, PANEL_VALUE, 1, 0};
    struct list gate = copied_list(both, COUNT(both), pool, COUNT(pool));
    struct list mux = copied_list(chosen, COUNT(chosen), pool, COUNT(pool));
    struct list cancelled = copied_list(idle, COUNT(idle), pool, COUNT(pool));
    separate_is("And(v0, v1), v1 marked", &gate, 2, 2, at_3);
    separate_is("And(v0, v1), v0 marked", &gate, 2, 1, at_3);
    separate_is("And(v0, v1), both marked", &gate, 2, 3, at_3);
    separate_is("And(v0, v1), nothing marked", &gate, 2, 0, separate);
    separate_is("And(v0, v1) of thirty, all others marked", &gate, 30, 0x3FFFFFFC, separate);
    separate_is("And(v0, v1) of thirty, all marked", &gate, 30, 0x3FFFFFFF, at_3);
    separate_is("Mux(v1, DC, v0)", &mux, 2, 2, at_2);
    separate_is("And(v0, Xor(v1, v1))", &cancelled, 2, 2, separate);
    give_list_back(&gate);
    give_list_back(&mux);
    give_list_back(&cancelled);
}

/* ---- failures, widths, many variables */

/* Mux(v0, DC, register): the one failure is not the other. */
static void failures(void)
{
    const uint32_t pool[] = {0, 0, 0, 0, 0, 1, 2};
    const uint32_t nodes[] = {PANEL_VAR, 0, 0, PANEL_DC, 0, 0, PANEL_FDRE, 0, 4, PANEL_MUX, 4, 3};
    const uint64_t at_1[] = {PANEL_DONE, 0, PANEL_CROSSING, 1, PANEL_DONT_CARE, 0, 0, PANEL_REGISTER, 0, 0};
    struct list mux = copied_list(nodes, COUNT(nodes), pool, COUNT(pool));
    struct list reg = copied_list(nodes, COUNT(nodes) - PANEL_NODE_WORDS, pool, COUNT(pool));
    separate_is("DC against a register", &mux, 1, 1, at_1);
    separate_is("a register alone", &reg, 1, 1, separate);
    give_list_back(&mux);
    give_list_back(&reg);
}

/* Bus(v0, v1): v1 is bit 0. */
static void widths(void)
{
    const uint32_t pool[] = {0, 1};
    const uint32_t nodes[] = {PANEL_VAR, 0, 0, PANEL_VAR, 1, 0, PANEL_BUS, 0, 2};
    const uint64_t at_1[] = {PANEL_DONE, 0, PANEL_CROSSING, 1, PANEL_VALUE, 2, 2, PANEL_VALUE, 2, 0};
    const uint64_t at_2[] = {PANEL_DONE, 0, PANEL_CROSSING, 2, PANEL_VALUE, 2, 1, PANEL_VALUE, 2, 0};
    struct list bus = copied_list(nodes, COUNT(nodes), pool, COUNT(pool));
    separate_is("Bus(v0, v1), v0 marked", &bus, 2, 1, at_1);
    separate_is("Bus(v0, v1), v1 marked", &bus, 2, 2, at_2);
    give_list_back(&bus);
}

static void thirty_variables(void)
{
    const uint64_t at_1[] = {PANEL_DONE, 0, PANEL_CROSSING, 1, PANEL_VALUE, 1, 1, PANEL_VALUE, 1, 0};
    const uint64_t at_512[] = {PANEL_DONE, 0, PANEL_CROSSING, 512, PANEL_VALUE, 1, 1, PANEL_VALUE, 1, 0};
    const uint64_t highest[] = {PANEL_DONE, 0, PANEL_CROSSING, 1 << 29, PANEL_VALUE, 1, 1, PANEL_VALUE, 1, 0};
    const uint32_t last[] = {PANEL_VAR, 29, 0};
    struct list all = xor_of(30);
    struct list more = xor_of(31);
    struct list one = copied_list(last, COUNT(last), NULL, 0);
    separate_is("30 variables, v0 and v29 marked", &all, 30, 0x20000001, at_1);
    separate_is("30 variables, v9 and above marked", &all, 30, 0x3FFFFE00, at_512);
    separate_is("v29 marked", &one, 30, 0x20000000, highest);
    separate_is("v29 not marked", &one, 30, 0x1FFFFFFF, separate);
    separate_refuses("31 variables", &more, 30, 1, work_of(&more), PANEL_OUT_OF_BOUNDS, 0);
    separate_refuses("31 variables, n = 31", &more, 31, 1, work_of(&more), PANEL_OUT_OF_BOUNDS, 0);
    give_list_back(&all);
    give_list_back(&more);
    give_list_back(&one);
}

/* ---- number 11, by each of its causes */

static void beyond(const char *name, const struct list *list, uint32_t n, uint32_t marks)
{
    separate_refuses(name, list, n, marks, work_of(list), PANEL_OUT_OF_BOUNDS, 0);
}

static void numbers_of_variables(void)
{
    struct list low = zeros(1, 0);
    separate_is("n = 0", &low, 0, 0, separate);
    separate_is("n = 30", &low, 30, 0, separate);
    beyond("n = 31", &low, 31, 0);
    beyond("n = 32", &low, 32, 0);
    beyond("n = 256", &low, 256, 0);
    beyond("n = 2^31", &low, 0x80000000u, 0);
    beyond("n = 2^32 - 1", &low, UINT32_MAX, UINT32_MAX);
    give_list_back(&low);
}

static void places_of_marks(void)
{
    struct list low = zeros(1, 0);
    separate_is("the highest mark of three", &low, 3, 4, separate);
    separate_is("all thirty marks", &low, 30, 0x3FFFFFFF, separate);
    beyond("a fourth mark of three", &low, 3, 8);
    beyond("a mark, n = 0", &low, 0, 1);
    beyond("a mark at 30", &low, 30, 0x40000000);
    beyond("a mark at 31", &low, 30, 0x80000000u);
    beyond("all marks", &low, 30, UINT32_MAX);
    give_list_back(&low);
}

/* v5 and a constant, which is the root: v5 counts though it is not reached. */
static void places_of_variables(void)
{
    const uint32_t nodes[] = {PANEL_VAR, 5, 0, PANEL_CONST, 1, 0};
    struct list unreached = copied_list(nodes, COUNT(nodes), NULL, 0);
    struct list root = copied_list(nodes, PANEL_NODE_WORDS, NULL, 0);
    const uint64_t at_32[] = {PANEL_DONE, 0, PANEL_CROSSING, 32, PANEL_VALUE, 1, 1, PANEL_VALUE, 1, 0};
    separate_is("v5 of six", &root, 6, 32, at_32);
    separate_is("v5 of six, unreached", &unreached, 6, 32, separate);
    beyond("v5 of five", &root, 5, 0);
    beyond("v5 of five, unreached", &unreached, 5, 0);
    give_list_back(&unreached);
    give_list_back(&root);
}

/* 10, 7 and 8 come before 11. */
static void order(void)
{
    const uint32_t program[] = {PANEL_PROGRAM, 8, 0};
    struct list empty = copied_list(NULL, 0, NULL, 0);
    struct list root = copied_list(program, COUNT(program), NULL, 0);
    struct list low = zeros(1, 0);
    separate_refuses("7 before 11", &empty, 31, 1, 0, PANEL_NO_ROOT, 0);
    separate_refuses("8 before 11", &root, 31, 1, work_of(&root), PANEL_NOT_EVALUABLE, 0);
    separate_refuses("10 before 11", &low, 31, 1, work_of(&low) - 1, PANEL_LITTLE_WORK, 0);
    give_list_back(&empty);
    give_list_back(&root);
    give_list_back(&low);
}

/* ---- all of them */

void separations_by_hand(void)
{
    examples();
    failures();
    widths();
    thirty_variables();
    numbers_of_variables();
    places_of_marks();
    places_of_variables();
    order();
}
