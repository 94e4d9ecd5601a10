/* One sheet through every call; an accepted one is also written back. */
#ifndef REPLAY_H
#define REPLAY_H

#include "cagwoni.h"
#include "fence.h"

struct expected {
    const uint8_t *sheet;
    size_t sheet_len;
    /* The refusal, number 0 if the sheet is accepted. */
    uint64_t number, place;
    const uint8_t *page;
    size_t page_len;
    /* The widths, if they are known. */
    const cagwoni_measured *widths;
};

void replay(const struct expected *expected, enum fence fence);

/* The page by turns of a buffer that has room for any line, as the header shows it. */
void by_fixed_buffer(const struct expected *expected, enum fence fence);

/* The same where no answer is known: whatever check, count and page say, all calls must agree with it. */
void replay_unknown(const uint8_t *sheet, size_t sheet_len, enum fence fence);

#endif
