#include "list.h"

struct list read_list(size_t words, size_t entries)
{
    struct list list;
    list.words = words;
    list.entries = entries;
    list.nodes = lend_read_u32("node words", words);
    list.pool = lend_read_u32("pool", entries);
    return list;
}

struct list copied_list(const uint32_t *nodes, size_t words, const uint32_t *pool, size_t entries)
{
    struct list list;
    list.words = words;
    list.entries = entries;
    list.nodes = lend_copy("node words", nodes, words, sizeof(uint32_t));
    list.pool = lend_copy("pool", pool, entries, sizeof(uint32_t));
    return list;
}

void expect_list_unchanged(const struct list *list)
{
    expect_unchanged(&list->nodes, 0);
    expect_unchanged(&list->pool, 0);
}

void give_list_back(struct list *list)
{
    give_back(&list->nodes);
    give_back(&list->pool);
}
