/* The call that writes a sheet. */
#ifndef WRITE_H
#define WRITE_H

#include "apart.h"
#include "cagwoni.h"
#include "fence.h"

/* The desk's sheet as a table, as the header spells it. */
extern const uint16_t desk_numbers[37];
extern const uint8_t desk_text[39];

/* An accepted sheet is taken apart and written back, into buffers that it fills, that are longer and that are short. */
void write_back(const uint8_t *sheet, size_t sheet_len, enum fence fence);

/* A table of which no answer is known: whatever the call says must fit what it does and what the other calls say. */
void write_unknown(const struct slices *slices, enum fence fence);

#endif
