/* The desk's sheet, its prefixes, and what a caller may get wrong. */
#include <stdlib.h>
#include <string.h>

#include "cases.h"
#include "check.h"
#include "replay.h"

const uint8_t desk_sheet[81] = {
    0x01, 0x01, 0x14, 0x00, 0x00, 0x00, 0x16, 0x2B, 0x2D, 0x2B, 0x2B, 0x7C, 0x7C, 0x7C, 0x2B, 0x3D, 0x2B,
    0x2B, 0x7C, 0x7C, 0x7C, 0x2B, 0x2D, 0x2B, 0x2B, 0x2B, 0x2D, 0x2B, 0x2B, 0x02, 0x01, 0x01, 0x00, 0x00,
    0x00, 0x00, 0x00, 0x00, 0x00, 0x00, 0x00, 0x01, 0x01, 0x00, 0x00, 0x00, 0x00, 0x00, 0x00, 0x00, 0x00,
    0x00, 0x00, 0x01, 0x00, 0x02, 0x00, 0x00, 0x01, 0x02, 0x61, 0x62, 0x00, 0x00, 0x01, 0x0F, 't',  'h',
    'e',  ' ',  'q',  'u',  'i',  'c',  'k',  ' ',  'b',  'r',  'o',  'w',  'n'};

const char desk_page[] = "+----+-------------+\n"
                         "| ab | the quick   |\n"
                         "|    | brown       |\n"
                         "+----+-------------+\n";

static void desk_itself(enum fence fence) {
    cagwoni_measured widths = {.columns = 2, .content = {2, 11}};
    struct expected e = {.sheet = desk_sheet, .sheet_len = sizeof desk_sheet, .widths = &widths};
    e.page = (const uint8_t *)desk_page;
    e.page_len = strlen(desk_page);
    about_sheet("desk", 0);
    replay(&e, fence);
    about_call("cagwoni_count", 0);
    cagwoni_counted counted = cagwoni_count(desk_sheet, sizeof desk_sheet);
    CHECK(counted.lines == 4);
    CHECK(counted.bytes == 84);
}

static void refused(const uint8_t *sheet, size_t length, uint64_t number, uint64_t place, enum fence fence) {
    struct expected e = {.sheet = sheet, .sheet_len = length, .number = number, .place = place};
    replay(&e, fence);
}

/* Each prefix ends before a field is whole; the first byte after the last row gets 9. */
static void desk_cut_and_grown(enum fence fence) {
    for (size_t length = 0; length < sizeof desk_sheet; length++) {
        about_sheet("desk, first bytes:", length);
        refused(desk_sheet, length, CAGWONI_ENDS_EARLY, length, fence);
    }
    uint8_t grown[sizeof desk_sheet + 2] = {0};
    memcpy(grown, desk_sheet, sizeof desk_sheet);
    for (size_t more = 1; more <= 2; more++) {
        about_sheet("desk, bytes after:", more);
        refused(grown, sizeof desk_sheet + more, CAGWONI_BYTES_AFTER, sizeof desk_sheet, fence);
    }
}

static void lengths_around_the_limit(enum fence fence) {
    uint8_t *zeros = calloc(40000, 1);
    if (!zeros)
        give_up("calloc");
    for (size_t length = 32767; length <= 32770; length++) {
        about_sheet("zeros, as many as", length);
        int over = length > CAGWONI_LONGEST_SHEET;
        refused(zeros, length, over ? CAGWONI_TOO_LONG : CAGWONI_EDITION, over ? CAGWONI_LONGEST_SHEET : 0, fence);
    }
    free(zeros);
}

/* A null pointer with length 0: as a sheet, as a buffer, as both. */
static void null_pointers(void) {
    uint8_t page[8];
    struct lent buffer = {.bytes = page, .length = sizeof page};
    about_sheet("a null pointer", 0);
    CHECK(cagwoni_check(NULL, 0).number == CAGWONI_ENDS_EARLY);
    CHECK(cagwoni_count(NULL, 0).number == CAGWONI_ENDS_EARLY);
    CHECK(cagwoni_widths(NULL, 0).number == CAGWONI_ENDS_EARLY);
    CHECK(cagwoni_reasons(NULL, 0).number == CAGWONI_ENDS_EARLY);
    mark(&buffer);
    CHECK(cagwoni_print_page(NULL, 0, page, sizeof page).number == CAGWONI_ENDS_EARLY);
    CHECK(cagwoni_print_line(NULL, 0, 0, page, sizeof page).number == CAGWONI_ENDS_EARLY);
    CHECK(cagwoni_print_lines(NULL, 0, 0, page, sizeof page).number == CAGWONI_ENDS_EARLY);
    CHECK(untouched(&buffer, 0));
    CHECK(cagwoni_print_page(NULL, 0, NULL, 0).number == CAGWONI_ENDS_EARLY);
    about_sheet("desk, the buffer a null pointer", 0);
    CHECK(cagwoni_print_page(desk_sheet, sizeof desk_sheet, NULL, 0).place == strlen(desk_page));
    CHECK(cagwoni_print_line(desk_sheet, sizeof desk_sheet, 3, NULL, 0).place == 21);
    CHECK(cagwoni_print_lines(desk_sheet, sizeof desk_sheet, 3, NULL, 0).place == 21);
    CHECK(cagwoni_print_lines(desk_sheet, sizeof desk_sheet, 4, NULL, 0).place == 4);
}

/* No style, no column, no row: the page has no byte, so a null pointer has room enough. */
static void empty_page(enum fence fence) {
    uint8_t sheet[32] = {1, 1, 20, 0, 0, 0, 22};
    struct expected e = {.sheet = sheet, .sheet_len = sizeof sheet};
    about_sheet("a page of 0 lines", 0);
    replay(&e, fence);
    cagwoni_printed got = cagwoni_print_page(sheet, sizeof sheet, NULL, 0);
    CHECK(got.number == 0 && got.place == 0 && got.written == 0);
    got = cagwoni_print_line(sheet, sizeof sheet, 0, NULL, 0);
    CHECK(got.number == CAGWONI_PAST_END && got.place == 0);
}

void desk_cases(enum fence fence) {
    desk_itself(fence);
    desk_cut_and_grown(fence);
    lengths_around_the_limit(fence);
    null_pointers();
    empty_page(fence);
}
