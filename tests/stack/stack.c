/*
 * How much stack each call of the library takes, as seen: a thread's stack is painted, the call is made in it on a long
 * list, and what is no longer painted is counted, less what a thread takes that makes no call. Nothing here is proved.
 */
#define _GNU_SOURCE
#include <pthread.h>
#include <stdio.h>
#include <stdlib.h>
#include <string.h>

#include "panel.h"

enum { STACK = 1 << 20, PAINT = 0xA5, VARIABLES = 8, MARKS = 3 };

static uint32_t nodes[3 * PANEL_MOST_NODES], pool[PANEL_MOST_POOL];
static uint32_t out_nodes[3 * PANEL_MOST_NODES], out_pool[PANEL_MOST_POOL];
static uint64_t work[2 * (16 * PANEL_MOST_NODES + 2 * PANEL_MOST_POOL)];
static uint64_t pairs[2 * PANEL_MOST_NODES], answer[10];
static uint8_t bytes[PANEL_VARIABLES];
static size_t node_words, entries;

enum { WORK = sizeof work / sizeof *work };

/* Xors over shared nodes: every node is reached, and a canonical list has as many Luts */
static void make_list(uint32_t count)
{
    for (uint32_t node = 0; node < count; node++) {
        uint32_t *at = nodes + 3 * node;
        if (node < VARIABLES) {
            at[0] = PANEL_VAR, at[1] = node, at[2] = 0;
        } else {
            at[0] = PANEL_XOR, at[1] = (uint32_t)entries, at[2] = 2;
            pool[entries++] = node - 1;
            pool[entries++] = node - VARIABLES;
        }
    }
    node_words = 3 * count;
}

static void nothing(void) { answer[0] = PANEL_DONE; }
static void verify(void) { panel_verify(nodes, node_words, pool, entries, work, WORK, answer); }
static void evaluate(void)
{
    panel_evaluate(nodes, node_words, pool, entries, bytes, sizeof bytes, work, WORK, pairs, 2 * PANEL_MOST_NODES, answer);
}
/* the same list without its root: another tree, so that assignments are tried */
static void compare(void)
{
    panel_compare(nodes, node_words, pool, entries, nodes, node_words - 3, pool, entries, work, WORK, answer);
}
static void separate(void)
{
    panel_separate(nodes, node_words, pool, entries, VARIABLES, MARKS, work, WORK, answer);
}
static void canonicalize(void)
{
    panel_canonicalize(nodes, node_words, pool, entries, out_nodes, 3 * PANEL_MOST_NODES, out_pool, PANEL_MOST_POOL, work,
                       WORK, answer);
}
static void swap_pos(void) { panel_swap_pos(202, 3, 1, answer); }

static void *run(void *call)
{
    (*(void (**)(void))call)();
    return NULL;
}

static void fail(const char *what)
{
    fprintf(stderr, "FAILED: %s\n", what);
    exit(1);
}

/* How many bytes of a painted stack are painted no more, once the call has been made on it */
static size_t touched(void (*call)(void))
{
    pthread_attr_t attributes;
    pthread_t thread;
    unsigned char *stack;
    size_t left = 0;
    if (posix_memalign((void **)&stack, 4096, STACK) != 0) {
        fail("no memory");
    }
    memset(stack, PAINT, STACK);
    pthread_attr_init(&attributes);
    if (pthread_attr_setstack(&attributes, stack, STACK) != 0 || pthread_create(&thread, &attributes, run, &call) != 0) {
        fail("no thread");
    }
    pthread_join(thread, NULL);
    while (left < STACK && stack[left] == PAINT) {
        left++;
    }
    free(stack);
    return STACK - left;
}

int main(void)
{
    const struct {
        const char *name;
        void (*call)(void);
    } calls[] = {{"panel_verify", verify}, {"panel_evaluate", evaluate}, {"panel_compare", compare},
                 {"panel_separate", separate}, {"panel_canonicalize", canonicalize}, {"panel_swap_pos", swap_pos}};
    make_list(2000);
    for (size_t at = 0; at < sizeof calls / sizeof *calls; at++) {
        /* once before it counts: the loader takes stack of its own where it finds memcpy and memset */
        calls[at].call();
        if (answer[0] != PANEL_DONE) {
            fail(calls[at].name);
        }
        size_t took = touched(calls[at].call) - touched(nothing);
        printf("%-20s %5zu bytes\n", calls[at].name, took);
    }
    return 0;
}
