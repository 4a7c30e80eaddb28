#include "by_hand.h"

#include "by_hand_calls.h"

#define EXPECTED(nodes, pool) {nodes, COUNT(nodes), pool, COUNT(pool)}

/* ---- document 01's examples, and the order of the list */

/* And(v0, v1), with a third variable that the root does not reach */
static const uint32_t and_nodes[] = {PANEL_VAR, 0, 0, PANEL_VAR, 1, 0, PANEL_VAR, 2, 0, PANEL_AND, 0, 2};
static const uint32_t and_pool[] = {0, 1};
static const uint64_t and_listed[] = {1, 8, 0, 3, 0, 0, 3, 1, 0, 9, 0, 3};
static const uint64_t and_entries[] = {0, 1, 2};

static struct list and_list(void)
{
    return copied_list(and_nodes, COUNT(and_nodes), and_pool, COUNT(and_pool));
}

static void examples(void)
{
    const uint32_t pool[] = {2, 0, 1, 1, 3, 0};
    const uint32_t mux_nodes[] = {PANEL_VAR, 0, 0, PANEL_VAR, 1, 0, PANEL_CONST, 1, 0, PANEL_MUX, 0, 3};
    const uint32_t not_nodes[] = {PANEL_VAR, 0, 0, PANEL_VAR, 1, 0, PANEL_CONST, 1, 0, PANEL_NOT, 2, 1, PANEL_AND, 4, 2};
    const uint64_t wire[] = {3, 0, 0};
    const uint64_t inverted[] = {1, 8, 0, 1, 1, 0, 3, 1, 0, 9, 0, 2, 3, 0, 0, 9, 2, 3};
    const uint64_t entries[] = {1, 2, 0, 3, 4};
    const struct expected_list gate = EXPECTED(and_listed, and_entries);
    const struct expected_list chosen = {wire, COUNT(wire), NULL, 0};
    const struct expected_list order = EXPECTED(inverted, entries);
    struct list both = and_list();
    struct list mux = copied_list(mux_nodes, COUNT(mux_nodes), pool, COUNT(pool));
    struct list inner = copied_list(not_nodes, COUNT(not_nodes), pool, COUNT(pool));
    canonicalize_is("And(v0, v1)", &both, gate);
    canonicalize_is("Mux(true, v0, v1)", &mux, chosen);
    canonicalize_is("And(Not(v1), v0)", &inner, order);
    give_list_back(&both);
    give_list_back(&mux);
    give_list_back(&inner);
}

/* ---- folding */

/* Lut(p, v0, c) for a constant c. Program 9 keeps v0 over true and turns it over false, 3 turns it over both. */
static void folded_luts(void)
{
    static const struct {
        const char *name;
        uint32_t program;
        uint32_t constant;
        uint64_t nodes[9];
        size_t words;
        size_t entries;
    } samples[] = {
        {"Lut(9, v0, true)", 9, 1, {3, 0, 0}, 3, 0},
        {"Lut(9, v0, false)", 9, 0, {1, 1, 0, 3, 0, 0, 9, 0, 2}, 9, 2},
        {"Lut(3, v0, true)", 3, 1, {1, 1, 0, 3, 0, 0, 9, 0, 2}, 9, 2},
        {"Lut(8, v0, false)", 8, 0, {0, 0, 0}, 3, 0},
        {"Lut(14, v0, true)", 14, 1, {0, 1, 0}, 3, 0},
        {"Lut(10, v0, true)", 10, 1, {0, 1, 0}, 3, 0},
        {"Lut(10, v0, false)", 10, 0, {0, 0, 0}, 3, 0},
    };
    const uint64_t turned[] = {0, 1};
    const uint32_t pool[] = {0, 1, 2};
    size_t i;
    for (i = 0; i < COUNT(samples); i++) {
        uint32_t nodes[] = {PANEL_PROGRAM, 0, 0, PANEL_VAR, 0, 0, PANEL_CONST, 0, 0, PANEL_LUT, 0, 3};
        struct expected_list expected = {NULL, 0, turned, 0};
        struct list list;
        nodes[1] = samples[i].program;
        nodes[7] = samples[i].constant;
        expected.nodes = samples[i].nodes;
        expected.words = samples[i].words;
        expected.entries = samples[i].entries;
        list = copied_list(nodes, COUNT(nodes), pool, COUNT(pool));
        canonicalize_is(samples[i].name, &list, expected);
        give_list_back(&list);
    }
}

/* A register over an empty Bus, a Not and the Not again: the Bus's first is the pool's length so far. */
static void kept_kinds(void)
{
    const uint32_t nodes[] = {PANEL_VAR, 9, 0, PANEL_BUS, 6, 0, PANEL_NOT, 0, 1, PANEL_NOT, 0, 1, PANEL_FDSE, 2, 4};
    const uint32_t pool[] = {0, 0, 2, 1, 3, 0};
    const uint64_t listed[] = {1, 1, 0, 3, 9, 0, 9, 0, 2, 10, 2, 0, 12, 2, 4};
    const uint64_t entries[] = {0, 1, 2, 3, 2, 1};
    const struct expected_list expected = EXPECTED(listed, entries);
    struct list list = copied_list(nodes, COUNT(nodes), pool, COUNT(pool));
    canonicalize_is("a register over an empty Bus", &list, expected);
    give_list_back(&list);
}

/* ---- number 14 */

static void wide(const char *name, const struct list *list, uint64_t node)
{
    canonicalize_refuses(name, list, room_of(list, 60, 60), PANEL_WIDE_GATE, node);
    canonicalize_refuses(name, list, room_of(list, 0, 0), PANEL_WIDE_GATE, node);
}

/* Of true, v0, Bus(v0): Mux(true, bus, bus), Not(it), and a register over the two, over the Not alone and over neither */
static void wide_gates(void)
{
    const uint32_t nodes[] = {PANEL_CONST, 1, 0, PANEL_VAR, 0, 0, PANEL_BUS, 0, 1, PANEL_MUX, 1, 3, PANEL_NOT, 4, 1,
                              PANEL_FDRE, 5, 4, PANEL_CYCLE, 0, 1};
    const uint32_t not_nodes[] = {PANEL_VAR, 3, 0, PANEL_BUS, 0, 0, PANEL_NOT, 0, 1, PANEL_NOT, 0, 1, PANEL_CYCLE, 1, 1};
    const uint32_t pool[] = {1, 0, 2, 2, 3, 4, 3, 1, 1};
    const uint32_t not_pool[] = {1, 3};
    const uint64_t over_wire[] = {3, 0, 0, 16, 0, 1};
    const uint64_t entry[] = {0};
    const struct expected_list expected = EXPECTED(over_wire, entry);
    struct list mux = copied_list(nodes, 12, pool, COUNT(pool));
    struct list turned = copied_list(nodes, 15, pool, COUNT(pool));
    struct list both = copied_list(nodes, 18, pool, COUNT(pool));
    struct list neither = copied_list(nodes, COUNT(nodes), pool, COUNT(pool));
    struct list second = copied_list(not_nodes, COUNT(not_nodes), not_pool, COUNT(not_pool));
    wide("Mux(true, bus, bus)", &mux, 3);
    wide("Not of it", &turned, 3);
    wide("a register over both", &both, 3);
    wide("the second of two Nots", &second, 3);
    canonicalize_is("wide gates unreached", &neither, expected);
    give_list_back(&mux);
    give_list_back(&turned);
    give_list_back(&both);
    give_list_back(&neither);
    give_list_back(&second);
}

/* ---- number 19 */

static void short_outputs(void)
{
    static const struct {
        const char *name;
        size_t words;
        size_t entries;
    } samples[] = {
        {"nodes one short", 11, 3}, {"pool one short", 12, 2}, {"both one short", 11, 2}, {"no output for nodes", 0, 3},
        {"no output for the pool", 12, 0}, {"no output", 0, 0}, {"nodes one short, pool to spare", 11, 100},
        {"pool one short, nodes to spare", 100, 2},
    };
    struct list both = and_list();
    size_t i;
    for (i = 0; i < COUNT(samples); i++) {
        struct canonical_room room = room_of(&both, samples[i].words, samples[i].entries);
        canonicalize_refuses(samples[i].name, &both, room, PANEL_SHORT_OUTPUT, 0);
        room.work--;
        canonicalize_refuses("10 before 19", &both, room, PANEL_LITTLE_WORK, 0);
    }
    give_list_back(&both);
}

/* ---- the limits of the canonical list: v0 under Nots */

static struct list nots(uint32_t count)
{
    static uint32_t nodes[PANEL_NODE_WORDS * PANEL_MOST_NODES];
    static uint32_t pool[PANEL_MOST_NODES];
    uint32_t i;
    nodes[0] = PANEL_VAR;
    for (i = 0; i < count; i++) {
        nodes[3 * i + 3] = PANEL_NOT;
        nodes[3 * i + 4] = i;
        nodes[3 * i + 5] = 1;
        pool[i] = i;
    }
    return copied_list(nodes, PANEL_NODE_WORDS * (count + 1), pool, count);
}

/* Program 1, v0 and a Lut for each Not. */
static void long_chains(void)
{
    enum { NOTS = PANEL_MOST_NODES - 2 };
    static uint64_t nodes[PANEL_NODE_WORDS * PANEL_MOST_NODES] = {PANEL_PROGRAM, 1, 0, PANEL_VAR, 0, 0};
    static uint64_t pool[2 * NOTS];
    const struct expected_list expected = EXPECTED(nodes, pool);
    struct list most = nots(NOTS);
    struct list over = nots(NOTS + 1);
    uint64_t i;
    for (i = 0; i < NOTS; i++) {
        nodes[3 * i + 6] = PANEL_LUT;
        nodes[3 * i + 7] = 2 * i;
        nodes[3 * i + 8] = 2;
        pool[2 * i] = 0;
        pool[2 * i + 1] = i + 1;
    }
    canonicalize_is("4,094 Nots", &most, expected);
    canonicalize_refuses("4,094 Nots, nodes one short", &most, room_of(&most, COUNT(nodes) - 1, COUNT(pool)),
                         PANEL_SHORT_OUTPUT, 0);
    canonicalize_refuses("4,094 Nots, pool one short", &most, room_of(&most, COUNT(nodes), COUNT(pool) - 1),
                         PANEL_SHORT_OUTPUT, 0);
    canonicalize_refuses("4,095 Nots", &over, room_of(&over, COUNT(nodes) + 30, PANEL_MOST_POOL), PANEL_SHORT_OUTPUT, 0);
    give_list_back(&most);
    give_list_back(&over);
}

/* ---- all of them */

void canonicals_by_hand(void)
{
    examples();
    folded_luts();
    kept_kinds();
    wide_gates();
    short_outputs();
    long_chains();
}
