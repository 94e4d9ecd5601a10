/* The parts of the test. */
#ifndef CASES_H
#define CASES_H

#include "fence.h"

/* The desk's sheet and its page, as document 01 spells them. */
extern const uint8_t desk_sheet[81];
extern const char desk_page[];

void header_cases(enum fence fence);
void desk_cases(enum fence fence);
void degree_cases(enum fence fence);
void reason_cases(enum fence fence);
void write_cases(enum fence fence);
void random_cases(enum fence fence, size_t count);

/* Each NAME.sheet of a folder with its NAME.page. */
void folder_cases(const char *folder, enum fence fence);

/* Stored answers in the format of tools/differential/sample/README.md. */
void record_cases(const char *file, enum fence fence);

#endif
