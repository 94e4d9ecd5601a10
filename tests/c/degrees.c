/* Texts with degree signs: what is refused and where, lines of different lengths, and the widest line of signs. */
#include <string.h>

#include "cases.h"
#include "check.h"
#include "replay.h"

enum { SIGNS = 100, WIDTH = 400 };

static uint8_t *put(uint8_t *to, const void *bytes, size_t count) {
    memcpy(to, bytes, count);
    return to + count;
}

static uint8_t *put_signs(uint8_t *to, size_t count) {
    for (; count > 0; count--)
        to = put(to, "\xC2\xB0", 2);
    return to;
}

static uint8_t *put_spaces(uint8_t *to, size_t count) {
    memset(to, ' ', count);
    return to + count;
}

/* No style, one column, one row, one cell of one line, up to its length byte: the bytes after it are at PLACE. */
enum { PLACE = 49 };
static const uint8_t one_line[PLACE - 1] = {[0] = 1, [6] = 22, [29] = 1, [42] = 1, [44] = 1, [47] = 1};

static size_t sheet_of(uint8_t *to, uint8_t length, const char *bytes, size_t count) {
    uint8_t *at = put(to, one_line, sizeof one_line);
    *at++ = length;
    return (size_t)(put(at, bytes, count) - to);
}

struct refusal {
    const char *bytes;
    uint8_t count, length;
    uint64_t number, after;
};

static const struct refusal refusals[] = {
    {"a\xC2", 2, 3, CAGWONI_ENDS_EARLY, 2},
    {"a\xC2", 2, 2, CAGWONI_NOT_PRINTABLE, 1},
    {"\xC2", 1, 2, CAGWONI_ENDS_EARLY, 1},
    {"\xC2", 1, 1, CAGWONI_NOT_PRINTABLE, 0},
    {"\xC2\xB0", 2, 1, CAGWONI_NOT_PRINTABLE, 0},
    {"\xC2 ", 2, 2, CAGWONI_NOT_PRINTABLE, 0},
    {"\xC2\xC2\xB0", 3, 3, CAGWONI_NOT_PRINTABLE, 0},
    {"\xC2\xB0\xB0", 3, 3, CAGWONI_NOT_PRINTABLE, 2},
    {"a\xB0", 2, 2, CAGWONI_NOT_PRINTABLE, 1},
    {"\xC2\xB0", 2, 3, CAGWONI_ENDS_EARLY, 2},
    {"\xC2\xB0\xC2\xB0", 4, 2, CAGWONI_BYTES_AFTER, 2},
};

static void refused_halves(enum fence fence) {
    uint8_t sheet[PLACE + 8];
    for (size_t at = 0; at < sizeof refusals / sizeof *refusals; at++) {
        const struct refusal *r = &refusals[at];
        struct expected e = {.sheet = sheet, .number = r->number, .place = PLACE + r->after};
        e.sheet_len = sheet_of(sheet, r->length, r->bytes, r->count);
        about_sheet("halves of a degree sign", at);
        replay(&e, fence);
    }
}

/* Delimiters of table, columns and cells and style characters are ASCII. */
static void refused_elsewhere(enum fence fence) {
    static const size_t places[] = {4, 7, 28, 32, 43, 56, 62};
    uint8_t sheet[sizeof desk_sheet];
    for (size_t at = 0; at < sizeof places / sizeof *places; at++) {
        for (size_t half = 0; half < 2; half++) {
            struct expected e = {.sheet = sheet, .sheet_len = sizeof sheet, .place = places[at]};
            e.number = CAGWONI_NOT_PRINTABLE;
            memcpy(sheet, desk_sheet, sizeof sheet);
            sheet[places[at]] = half ? 0xB0 : 0xC2;
            about_sheet("half a degree sign elsewhere, at", places[at]);
            replay(&e, fence);
        }
    }
}

/* As many bytes as a line of the sheet takes, at a width of 100: a page of 201 bytes. */
static void hundred_signs(enum fence fence) {
    uint8_t sheet[PLACE + 2 * SIGNS], page[2 * SIGNS + 1];
    cagwoni_measured widths = {.columns = 1, .content = {SIGNS}};
    struct expected e = {.sheet = sheet, .page = page, .page_len = sizeof page, .widths = &widths};
    *put_signs(page, SIGNS) = '\n';
    e.sheet_len = sheet_of(sheet, 2 * SIGNS, (const char *)page, 2 * SIGNS);
    about_sheet("100 signs", 0);
    replay(&e, fence);
    cagwoni_printed got = cagwoni_print_page(sheet, e.sheet_len, NULL, 0);
    CHECK(got.number == CAGWONI_BUFFER_SHORT && got.place == sizeof page);
    cagwoni_printed_lines none = cagwoni_print_lines(sheet, e.sheet_len, 0, NULL, 0);
    CHECK(none.number == CAGWONI_BUFFER_SHORT && none.place == sizeof page && none.next == 0);
}

/* Twelve columns of the greatest width, bare. Row k has 100 signs in its first k cells: 13 lines, each wider in bytes
 * than the one before by 100, and all of 4,800 characters. */
static void longer_and_longer(enum fence fence) {
    enum { ROWS = CAGWONI_MOST_COLUMNS + 1 };
    static uint8_t sheet[32 + 11 * CAGWONI_MOST_COLUMNS + ROWS * (2 + CAGWONI_MOST_COLUMNS * (4 + 2 * SIGNS))];
    static uint8_t page[ROWS * (CAGWONI_MOST_COLUMNS * (WIDTH + SIGNS) + 1)];
    static const uint8_t head[29] = {[0] = 1, [6] = 22}, absolute[11] = {0, 0, 0, 0, 3, 0, WIDTH & 0xFF, WIDTH >> 8};
    static const uint8_t cell[] = {0, 0, 1, 2 * SIGNS};
    uint8_t *to = put(sheet, head, sizeof head), *line = page;
    *to++ = CAGWONI_MOST_COLUMNS;
    for (size_t column = 0; column < CAGWONI_MOST_COLUMNS; column++)
        to = put(to, absolute, sizeof absolute);
    *to++ = 0;
    *to++ = ROWS;
    for (uint8_t row = 0; row < ROWS; row++) {
        *to++ = 0;
        *to++ = row;
        for (size_t k = 0; k < row; k++) {
            to = put_signs(put(to, cell, sizeof cell), SIGNS);
            line = put_spaces(put_signs(line, SIGNS), WIDTH - SIGNS);
        }
        line = put_spaces(line, (size_t)(CAGWONI_MOST_COLUMNS - row) * WIDTH);
        *line++ = '\n';
    }
    struct expected e = {.sheet = sheet, .page = page};
    e.sheet_len = (size_t)(to - sheet);
    e.page_len = (size_t)(line - page);
    about_sheet("longer and longer lines", 0);
    replay(&e, fence);
}

void degree_cases(enum fence fence) {
    refused_halves(fence);
    refused_elsewhere(fence);
    hundred_signs(fence);
    longer_and_longer(fence);
}
