#include "lent.h"

#include "report.h"
#include "words.h"

#include <stdio.h>
#include <stdlib.h>
#include <string.h>

/* a multiple of every element's size, so that what stands behind a guard is aligned */
#define GUARD 64
#define GUARD_BYTE 0xA5

static unsigned char *room(size_t size)
{
    unsigned char *memory = (unsigned char *)malloc(size);
    if (memory == NULL) {
        puts("there is no memory for a case");
        exit(2);
    }
    return memory;
}

static size_t whole(const struct lent *lent)
{
    return GUARD + lent->size + GUARD;
}

static unsigned char *start(const struct lent *lent)
{
    return lent->memory + GUARD;
}

/* ---- before the call */

/* Keeps what now stands there as what stood there before. */
static void keep(const struct lent *lent)
{
    memcpy(lent->before, lent->memory, whole(lent));
}

struct lent lend(const char *name, size_t count, size_t element)
{
    struct lent lent;
    lent.name = name;
    lent.size = count * element;
    lent.memory = room(whole(&lent));
    lent.before = room(whole(&lent));
    memset(lent.memory, GUARD_BYTE, whole(&lent));
    keep(&lent);
    return lent;
}

struct lent lend_pattern(const char *name, size_t count)
{
    struct lent lent = lend(name, count, sizeof(uint64_t));
    size_t i;
    for (i = 0; i < count; i++) {
        lent_u64(&lent)[i] = ((uint64_t)1 << 63) + i;
    }
    keep(&lent);
    return lent;
}

struct lent lend_pattern32(const char *name, size_t count)
{
    struct lent lent = lend(name, count, sizeof(uint32_t));
    size_t i;
    for (i = 0; i < count; i++) {
        lent_u32(&lent)[i] = ((uint32_t)1 << 31) + (uint32_t)i;
    }
    keep(&lent);
    return lent;
}

struct lent lend_read_u32(const char *name, size_t count)
{
    struct lent lent = lend(name, count, sizeof(uint32_t));
    size_t i;
    for (i = 0; i < count; i++) {
        lent_u32(&lent)[i] = (uint32_t)next_word(UINT32_MAX);
    }
    keep(&lent);
    return lent;
}

struct lent lend_read_u8(const char *name, size_t count)
{
    struct lent lent = lend(name, count, sizeof(uint8_t));
    size_t i;
    for (i = 0; i < count; i++) {
        lent_u8(&lent)[i] = (uint8_t)next_word(UINT8_MAX);
    }
    keep(&lent);
    return lent;
}

struct lent lend_copy(const char *name, const void *from, size_t count, size_t element)
{
    struct lent lent = lend(name, count, element);
    if (count > 0) {
        memcpy(start(&lent), from, lent.size);
    }
    keep(&lent);
    return lent;
}

uint8_t *lent_u8(const struct lent *lent)
{
    return start(lent);
}

uint32_t *lent_u32(const struct lent *lent)
{
    return (uint32_t *)(void *)start(lent);
}

uint64_t *lent_u64(const struct lent *lent)
{
    return (uint64_t *)(void *)start(lent);
}

/* ---- after the call */

static int is_as_before(const struct lent *lent, size_t from, size_t to)
{
    return memcmp(lent->memory + from, lent->before + from, to - from) == 0;
}

static int is_all_zeros(const struct lent *lent)
{
    size_t i;
    for (i = 0; i < lent->size; i++) {
        if (start(lent)[i] != 0) {
            return 0;
        }
    }
    return 1;
}

void expect_guards(const struct lent *lent)
{
    if (!is_as_before(lent, 0, GUARD)) {
        fault(lent->name, "written in front");
    }
    if (!is_as_before(lent, GUARD + lent->size, whole(lent))) {
        fault(lent->name, "written behind");
    }
}

void expect_unchanged(const struct lent *lent, size_t from)
{
    expect_guards(lent);
    if (!is_as_before(lent, GUARD + from, GUARD + lent->size)) {
        fault(lent->name, "changed");
    }
}

void expect_left(const struct lent *lent, int cleared)
{
    if (!cleared) {
        expect_unchanged(lent, 0);
        return;
    }
    expect_guards(lent);
    if (!is_all_zeros(lent)) {
        fault(lent->name, "not all zeros");
    }
}

void expect_answer(const struct lent *lent, const uint64_t *expected)
{
    expect_guards(lent);
    expect_words("answer word", lent_u64(lent), expected, lent->size / sizeof(uint64_t));
}

void give_back(struct lent *lent)
{
    free(lent->memory);
    free(lent->before);
}
