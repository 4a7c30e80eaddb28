/*
 * What a panel does before it loads a stop table: verify, compare with the drawing, separate the run signals. Six cases
 * are built in, one that may be loaded and five that may not. The program says what it found in plain words; its status
 * is 0 only if every case was decided as it should be.
 *
 * It uses no memory but static buffers and the stack, as firmware would. docs/LINKING.md explains it.
 */
#include <stdint.h>
#include <stdio.h>

#include "panel.h"

/* ---- this panel's own limits, and all that it lends */

enum {
    MOST_NODES = 64,
    MOST_POOL = 256,
    ONE_LIST = PANEL_WORK_PER_NODE * MOST_NODES + PANEL_WORK_PER_POOL * MOST_POOL,
    TWO_LISTS = 2 * ONE_LIST
};

static uint64_t work[TWO_LISTS];
static uint32_t out_nodes[PANEL_NODE_WORDS * MOST_NODES];
static uint32_t out_pool[MOST_POOL];

/* ---- the panel's signals, by variable number; the last is a run signal */

enum { STOP_BUTTON, DOOR_OPEN, OZONE_ALARM, RUN_REQUEST, SIGNALS };

static const char *const names[SIGNALS] = {"stop button", "door open", "ozone alarm", "run request"};
static const uint32_t run_signals = 1u << RUN_REQUEST;

/* ---- lists. "Healthy" is high where nothing asks for a stop. */

struct list {
    const uint32_t *nodes;
    size_t nodes_len;
    const uint32_t *pool;
    size_t pool_len;
};

#define LENGTH(array) (sizeof(array) / sizeof((array)[0]))
#define LIST(name) {name##_nodes, LENGTH(name##_nodes), name##_pool, LENGTH(name##_pool)}

/* (AND (MUX v3 (NOR v0 v1) (AND (NOT v0) (NOT v1))) (NOT v2)): running or not, drawn in two ways */
static const uint32_t drawing_nodes[] = {
    PANEL_VAR, STOP_BUTTON, 0, /* node 0 */
    PANEL_VAR, DOOR_OPEN,   0, /* node 1 */
    PANEL_VAR, OZONE_ALARM, 0, /* node 2 */
    PANEL_VAR, RUN_REQUEST, 0, /* node 3 */
    PANEL_NOR, 0,           2, /* node 4: of nodes 0 and 1 */
    PANEL_NOT, 2,           1, /* node 5: of node 0 */
    PANEL_NOT, 3,           1, /* node 6: of node 1 */
    PANEL_AND, 4,           2, /* node 7: of nodes 5 and 6 */
    PANEL_MUX, 6,           3, /* node 8: node 3 chooses node 4 (high) or node 7 (low) */
    PANEL_NOT, 9,           1, /* node 9: of node 2 */
    PANEL_AND, 10,          2  /* node 10, the root: of nodes 8 and 9 */
};
static const uint32_t drawing_pool[] = {0, 1, 0, 1, 5, 6, 3, 4, 7, 2, 8, 9};

/* (AND (MUX v3 (NOT v0) (NOR v0 v1)) (NOT v2)): while running, the door is not looked at */
static const uint32_t bypass_nodes[] = {
    PANEL_VAR, STOP_BUTTON, 0, PANEL_VAR, DOOR_OPEN, 0, PANEL_VAR, OZONE_ALARM, 0, PANEL_VAR, RUN_REQUEST, 0,
    PANEL_NOT, 0,           1, PANEL_NOR, 1,         2, PANEL_MUX, 3,          3, PANEL_NOT, 6,           1,
    PANEL_AND, 7,           2};
static const uint32_t bypass_pool[] = {0, 0, 1, 3, 4, 5, 2, 6, 7};

/* A lookup table of four operands, the run request first: the row number's bits are v3 v0 v1 v2. */
#define TABLE(name, program, last)                                                         \
    static const uint32_t name##_nodes[] = {                                               \
        PANEL_PROGRAM, program,   0, PANEL_VAR, RUN_REQUEST, 0, PANEL_VAR, STOP_BUTTON, 0, \
        PANEL_VAR,     DOOR_OPEN, 0, PANEL_VAR, last,        0, PANEL_LUT, 0,           5}

static const uint32_t table_pool[] = {0, 1, 2, 3, 4};

enum { ROW_0 = 1 << 0, ROW_1 = 1 << 1, ROW_8 = 1 << 8, ROW_10 = 1 << 10, ROW_16 = 1 << 16 };

TABLE(right, ROW_0 | ROW_8, OZONE_ALARM);            /* healthy: all low, whatever the run request is */
TABLE(row, ROW_0 | ROW_1 | ROW_8, OZONE_ALARM);      /* row 1 too: healthy in spite of the ozone alarm */
TABLE(wire, ROW_0 | ROW_8, SIGNALS);                 /* the last operand on a wire that the panel has not got */
TABLE(program, ROW_0 | ROW_16, OZONE_ALARM);         /* row 16: a table of four operands ends at row 15 */
TABLE(crossed, ROW_0 | ROW_8 | ROW_10, OZONE_ALARM); /* row 10: healthy though the door is open, while running */

#define TABLE_LIST(name) {name##_nodes, LENGTH(name##_nodes), table_pool, LENGTH(table_pool)}

struct check {
    const char *title;
    struct list drawing;
    struct list table;
    size_t work_len;
    int loads;
};

static const struct check checks[] = {
    {"A table that keeps to its drawing", LIST(drawing), TABLE_LIST(right), TWO_LISTS, 1},
    {"A table with one row wrong", LIST(drawing), TABLE_LIST(row), TWO_LISTS, 0},
    {"A table on another wire", LIST(drawing), TABLE_LIST(wire), TWO_LISTS, 0},
    {"A table whose program has a row too many", LIST(drawing), TABLE_LIST(program), TWO_LISTS, 0},
    {"A table that the run request bypasses, as its drawing does", LIST(bypass), TABLE_LIST(crossed), TWO_LISTS, 0},
    {"A panel that lends too little work space", LIST(drawing), TABLE_LIST(right), 1, 0}};

/* ---- what was found, in plain words */

/* What the first two words of an answer say. */
static int done(const char *what, const uint64_t *answer)
{
    if (answer[0] == PANEL_DONE)
        return 1;
    printf("  %s: refused with number %d at node %d\n", what, (int)answer[0], (int)answer[1]);
    return 0;
}

/* Bit v of the index drives variable v. */
static void print_assignment(uint64_t index)
{
    int v, high = 0;
    printf("assignment %lu (", (unsigned long)index);
    for (v = 0; v < SIGNALS; v++)
        if (index >> v & 1)
            printf("%s%s", high++ ? ", " : "", names[v]);
    printf("%s)", high ? " high" : "all low");
}

/* State, width and value */
static void print_answer(const uint64_t *words)
{
    static const char *const failures[] = {"undriven", "don't care", "register", "argument"};
    if (words[0] == PANEL_VALUE)
        printf("%lu", (unsigned long)words[2]);
    else
        printf("no value (%s)", failures[words[0] - PANEL_UNDRIVEN]);
}

static void print_words(const char *title, const uint32_t *words, size_t count)
{
    size_t i;
    printf("    %s", title);
    for (i = 0; i < count; i++)
        printf(" %lu", (unsigned long)words[i]);
    printf("\n");
}

/* ---- the three steps; each is 1 only where the next may be taken */

static int verified(const char *what, struct list list, size_t work_len)
{
    uint64_t answer[PANEL_VERIFY_WORDS];
    panel_verify(list.nodes, list.nodes_len, list.pool, list.pool_len, work, work_len, answer);
    if (!done(what, answer))
        return 0;
    printf("  %s: verified\n", what);
    return 1;
}

/* Each of the four signals stands below both drawings' roots, so bit v of the index drives variable v here too. */
static void print_difference(const uint64_t *answer)
{
    printf("  compared: %s at ", answer[2] == PANEL_NOT_EQUIV ? "they differ" : "undecided");
    print_assignment(answer[3]);
    printf(": the drawing answers ");
    print_answer(answer + 4);
    printf(", the table ");
    print_answer(answer + 7);
    printf("\n");
}

static int equivalent(struct list drawing, struct list table, size_t work_len)
{
    uint64_t answer[PANEL_COMPARE_WORDS];
    panel_compare(drawing.nodes, drawing.nodes_len, drawing.pool, drawing.pool_len, table.nodes, table.nodes_len,
                  table.pool, table.pool_len, work, work_len, answer);
    if (!done("compared", answer))
        return 0;
    if (answer[2] != PANEL_EQUIV) {
        print_difference(answer);
        return 0;
    }
    printf("  compared: alike under every assignment\n");
    return 1;
}

static int separated(struct list table, size_t work_len)
{
    uint64_t answer[PANEL_SEPARATE_WORDS];
    panel_separate(table.nodes, table.nodes_len, table.pool, table.pool_len, SIGNALS, run_signals, work, work_len,
                   answer);
    if (!done("separated", answer))
        return 0;
    if (answer[2] != PANEL_SEPARATE) {
        printf("  separated: the run signals cross at ");
        print_assignment(answer[3]);
        printf(": the answer is ");
        print_answer(answer + 4);
        printf(", with the run signals low ");
        print_answer(answer + 7);
        printf("\n");
        return 0;
    }
    printf("  separated: no run signal changes the answer\n");
    return 1;
}

/* Anything but Equiv and Separate means: do not load. */
static int may_load(const struct check *check)
{
    return verified("drawing", check->drawing, check->work_len) && verified("table", check->table, check->work_len)
           && equivalent(check->drawing, check->table, check->work_len) && separated(check->table, check->work_len);
}

/* ---- the canonical list: what is left of a table once all that makes no difference is dropped */

static int canonical(const struct check *check)
{
    uint64_t answer[PANEL_CANONICALIZE_WORDS];
    struct list list;
    panel_canonicalize(check->table.nodes, check->table.nodes_len, check->table.pool, check->table.pool_len, out_nodes,
                       LENGTH(out_nodes), out_pool, LENGTH(out_pool), work, check->work_len, answer);
    if (!done("canonical list", answer))
        return 0;
    list.nodes = out_nodes;
    list.nodes_len = (size_t)answer[2];
    list.pool = out_pool;
    list.pool_len = (size_t)answer[3];
    printf("  canonical list of the table:\n");
    print_words("nodes", list.nodes, list.nodes_len);
    print_words("pool", list.pool, list.pool_len);
    return equivalent(check->drawing, list, check->work_len);
}

/* ---- all cases */

static int as_it_should_be(const struct check *check)
{
    int loads;
    printf("%s\n", check->title);
    loads = may_load(check);
    printf("  %s\n", loads ? "load it" : "do not load it");
    return loads == check->loads && (!loads || canonical(check));
}

int main(void)
{
    size_t i;
    int wrong = 0;
    for (i = 0; i < LENGTH(checks); i++)
        wrong += !as_it_should_be(&checks[i]);
    printf("%d of %d cases decided otherwise than they should be\n", wrong, (int)LENGTH(checks));
    return wrong != 0;
}
