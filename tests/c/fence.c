#define _GNU_SOURCE
#include "fence.h"

#include <stdlib.h>
#include <sys/mman.h>
#include <unistd.h>

#include "check.h"

static struct lent lend_plain(size_t length) {
    struct lent lent = {.length = length};
    if (length > 0 && !(lent.bytes = lent.whole = malloc(length)))
        give_up("malloc");
    return lent;
}

struct lent lend(size_t length, enum fence fence) {
    if (fence == FENCE_PLAIN)
        return lend_plain(length);
    size_t page = (size_t)sysconf(_SC_PAGESIZE);
    size_t inside = (length + page - 1) / page * page;
    struct lent lent = {.length = length, .whole_length = inside + 2 * page};
    uint8_t *whole = mmap(NULL, lent.whole_length, PROT_NONE, MAP_PRIVATE | MAP_ANONYMOUS, -1, 0);
    if (whole == MAP_FAILED || (inside > 0 && mprotect(whole + page, inside, PROT_READ | PROT_WRITE)))
        give_up("mmap");
    lent.whole = whole;
    lent.bytes = whole + page + (fence == FENCE_ENDS ? inside - length : 0);
    return lent;
}

void give_back(struct lent *lent) {
    if (lent->whole_length == 0)
        free(lent->whole);
    else
        munmap(lent->whole, lent->whole_length);
}

/* 80 to AE: neither B0 nor C2, which a page may hold. */
static uint8_t mark_at(size_t at) { return (uint8_t)(0x80 + at % 47); }

void mark(struct lent *lent) {
    for (size_t at = 0; at < lent->length; at++)
        lent->bytes[at] = mark_at(at);
}

int untouched(const struct lent *lent, size_t from) {
    for (size_t at = from; at < lent->length; at++)
        if (lent->bytes[at] != mark_at(at))
            return 0;
    return 1;
}
