/* Memory that is lent to a call, with nothing readable beyond it. */
#ifndef FENCE_H
#define FENCE_H

#include <stddef.h>
#include <stdint.h>

/* ENDS: the byte after the last is unreadable. STARTS: the byte before the first is. PLAIN: a block of the heap, so
 * that valgrind sees what is touched beside it. */
enum fence { FENCE_ENDS, FENCE_STARTS, FENCE_PLAIN };

struct lent {
    uint8_t *bytes;
    size_t length;
    void *whole;
    size_t whole_length;
};

/* A null pointer for no bytes in plain memory, a pointer to an unreadable byte for no bytes at a fence. */
struct lent lend(size_t length, enum fence fence);
void give_back(struct lent *lent);

/* Fills with bytes that no page holds; `untouched` says whether those from `from` on still are as filled. */
void mark(struct lent *lent);
int untouched(const struct lent *lent, size_t from);

#endif
