/* An accepted sheet as an editor's table. */
#ifndef APART_H
#define APART_H

#include <stddef.h>
#include <stdint.h>

/* An editor's table: numbers and text. */
struct slices {
    uint16_t *numbers;
    size_t numbers_len;
    uint8_t *text;
    size_t text_len;
};

/* Fills the slices from an accepted sheet, and says how many of its bytes were gone through. There are no more numbers,
 * and no more bytes of text, than the sheet has bytes. */
size_t take_apart(const uint8_t *sheet, struct slices *to);

#endif
