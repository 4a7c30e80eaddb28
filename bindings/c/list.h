/* A node list that is lent to a call. */
#ifndef LIST_H
#define LIST_H

#include "lent.h"

struct list {
    size_t words;
    size_t entries;
    struct lent nodes;
    struct lent pool;
};

/* From the next words of the cases: the node words, then the pool entries. */
struct list read_list(size_t words, size_t entries);

struct list copied_list(const uint32_t *nodes, size_t words, const uint32_t *pool, size_t entries);

void expect_list_unchanged(const struct list *list);

void give_list_back(struct list *list);

#endif
