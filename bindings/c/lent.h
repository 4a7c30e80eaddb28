/* Memory that is lent to a call. It stands between two guards, and is copied before the call, so that whatever was written
 * can be seen afterwards: in it, in front of it and behind it. */
#ifndef LENT_H
#define LENT_H

#include <stddef.h>
#include <stdint.h>

struct lent {
    const char *name;
    size_t size;           /* in bytes, without the guards */
    unsigned char *memory; /* guard, what is lent, guard */
    unsigned char *before; /* all of it, as it was before the call */
};

/* ---- before the call */

/* So many elements of a size each. The guards are filled, and no byte of what is lent is 0. */
struct lent lend(const char *name, size_t count, size_t element);

/* The same, words of 2^63, 2^63 + 1, ..: none is 0 or a state, and no two are alike. */
struct lent lend_pattern(const char *name, size_t count);

/* The same, words of 32 bits: 2^31, 2^31 + 1, .. */
struct lent lend_pattern32(const char *name, size_t count);

/* The elements from the next words of the cases. */
struct lent lend_read_u32(const char *name, size_t count);
struct lent lend_read_u8(const char *name, size_t count);

/* The elements from memory of one's own. */
struct lent lend_copy(const char *name, const void *from, size_t count, size_t element);

uint8_t *lent_u8(const struct lent *lent);
uint32_t *lent_u32(const struct lent *lent);
uint64_t *lent_u64(const struct lent *lent);

/* ---- after the call: each adds a fault to the report where it is not so */

void expect_guards(const struct lent *lent);

/* As it was before, guards too, from a byte on. */
void expect_unchanged(const struct lent *lent, size_t from);

/* All zeros or, where it is not to be cleared, as it was before. */
void expect_left(const struct lent *lent, int cleared);

/* The answer block: as many words as it has, with its guards. */
void expect_answer(const struct lent *lent, const uint64_t *expected);

void give_back(struct lent *lent);

#endif
