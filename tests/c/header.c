/* What the header says beside the calls: layouts, the steps' numbers, the longest line, a large page, every page by a
 * fixed buffer, and the desk's sheet written from its table. */
#include <string.h>

#include "cases.h"
#include "check.h"
#include "replay.h"
#include "write.h"

/* `longestLine` of crates/rules/specs/Limits.antt, which leaves the 0A aside. */
_Static_assert(CAGWONI_LONGEST_LINE == CAGWONI_MOST_COLUMNS * 950 + 1, "the longest line is the one proved");

/* Two answers have padding: the widths' four bytes at its end, the reasons' three before its last field. */
static void layouts(void) {
    about_call("layouts", 0);
    CHECK(sizeof(cagwoni_checked) == 2 * 8);
    CHECK(sizeof(cagwoni_counted) == 4 * 8);
    CHECK(sizeof(cagwoni_printed) == 3 * 8);
    CHECK(sizeof(cagwoni_printed_lines) == 4 * 8);
    CHECK(offsetof(cagwoni_measured, columns) == 16);
    CHECK(offsetof(cagwoni_measured, content) == 24);
    CHECK(offsetof(cagwoni_measured, hidden) == 24 + 2 * CAGWONI_MOST_COLUMNS);
    CHECK(sizeof(bool) == 1);
    CHECK(sizeof(cagwoni_measured) == offsetof(cagwoni_measured, hidden) + CAGWONI_MOST_COLUMNS + 4);
    CHECK(offsetof(cagwoni_reasoned, columns) == 16);
    CHECK(offsetof(cagwoni_reasoned, step) == 24);
    CHECK(offsetof(cagwoni_reasoned, widened) == 24 + CAGWONI_MOST_COLUMNS);
    CHECK(offsetof(cagwoni_reasoned, has_difference) == 24 + 2 * CAGWONI_MOST_COLUMNS);
    CHECK(offsetof(cagwoni_reasoned, difference) == offsetof(cagwoni_reasoned, has_difference) + 1 + 3);
    CHECK(sizeof(cagwoni_reasoned) == offsetof(cagwoni_reasoned, difference) + 4);
}

static void steps(void) {
    about_call("steps", 0);
    CHECK(CAGWONI_STEP_NONE == 0);
    CHECK(CAGWONI_STEP_FIRST == 1);
    CHECK(CAGWONI_STEP_LOWER == 2);
    CHECK(CAGWONI_STEP_UPPER == 3);
    CHECK(CAGWONI_STEP_LONGEST == 4);
    CHECK(CAGWONI_STEP_PART == 5);
    CHECK(CAGWONI_STEP_SHARE == 6);
    CHECK(CAGWONI_STEP_UNTARGETED_LONGEST == 7);
    CHECK(CAGWONI_STEP_UNTARGETED_UPPER == 8);
}

void by_fixed_buffer(const struct expected *e, enum fence fence) {
    struct lent part = lend(CAGWONI_LONGEST_LINE, fence);
    size_t line = 0, at = 0;
    for (;;) {
        about_call("cagwoni_print_lines, fixed buffer", line);
        cagwoni_printed_lines p = cagwoni_print_lines(e->sheet, e->sheet_len, line, part.bytes, part.length);
        if (p.number == CAGWONI_PAST_END) {
            CHECK(p.place == line);
            break;
        }
        if (p.number != 0) {
            CHECK(p.number == e->number && p.place == e->place && line == 0);
            break;
        }
        CHECK(p.next > line && p.written > 0 && at + p.written <= e->page_len);
        CHECK(!e->page || memcmp(part.bytes, e->page + at, p.written) == 0);
        CHECK(part.bytes[p.written - 1] == '\n');
        line = p.next;
        at += p.written;
    }
    CHECK(at == e->page_len);
    give_back(&part);
}

/* Twenty rows with 8 lines of 200 characters in a column of width 1, beside eleven columns of 400. */
static size_t large_sheet(uint8_t *to) {
    static const uint8_t head[] = {1, 0, 0, 0, 0, 0, 22}, absolute[11] = {20, 20, 0, 0, 3, 0, 0x90, 0x01},
                         narrow[11] = {20, 20, 0, 0, 3, 0, 1, 0}, row[] = {0, 1, 0, 0, 8};
    uint8_t *at = to;
    memcpy(at, head, sizeof head);
    at += sizeof head;
    memset(at, '+', 22);
    at += 22;
    *at++ = CAGWONI_MOST_COLUMNS;
    for (size_t column = 0; column < CAGWONI_MOST_COLUMNS; column++, at += 11)
        memcpy(at, column == 0 ? narrow : absolute, 11);
    *at++ = 0;
    *at++ = 20;
    for (size_t k = 0; k < 20; k++) {
        memcpy(at, row, sizeof row);
        at += sizeof row;
        for (size_t line = 0; line < 8; line++, at += 201) {
            at[0] = 200;
            memset(at + 1, 'x', 200);
        }
    }
    return (size_t)(at - to);
}

/* The page of which the header speaks. */
static void large_page(enum fence fence) {
    static uint8_t sheet[CAGWONI_LONGEST_SHEET];
    struct expected e = {.sheet = sheet, .sheet_len = large_sheet(sheet), .page_len = 142653555};
    about_sheet("large", 0);
    about_call("cagwoni_count", 0);
    CHECK(e.sheet_len == 32424);
    cagwoni_counted counted = cagwoni_count(sheet, e.sheet_len);
    CHECK(counted.number == 0 && counted.lines == 32021 && counted.bytes == e.page_len);
    by_fixed_buffer(&e, fence);
}

/* As the header shows it. */
static void written_desk(void) {
    static const uint16_t numbers[] = {
        1, 1, 20, 0,                // edition, arrangement, target, delimiter
        0, 22,                      // lengths of indicator and style
        2,                          // columns
        1, 1, 0, 0, 0, 0, 0, 0, 0,
        1, 1, 0, 0, 0, 0, 0, 0, 0,
        0,                          // headers
        1,                          // rows
        0, 2,                       // height limit, cells
        0, 0, 1, 2,                 // delimiter, alignment, lines, length
        0, 0, 1, 15,
    };
    static const uint8_t text[] = "+-++|||+=++|||+-+++-++" "ab" "the quick brown";
    static uint8_t sheet[CAGWONI_LONGEST_SHEET];  // has room for any sheet
    size_t numbers_len = sizeof numbers / sizeof *numbers, text_len = sizeof text - 1;
    cagwoni_printed p = cagwoni_write_sheet(numbers, numbers_len, text, text_len, sheet, sizeof sheet);
    about_call("cagwoni_write_sheet", 0);
    CHECK(p.number == 0 && p.place == 0 && p.written == sizeof desk_sheet);
    CHECK(memcmp(sheet, desk_sheet, sizeof desk_sheet) == 0);
    CHECK(numbers_len == 37 && memcmp(numbers, desk_numbers, sizeof numbers) == 0);
    CHECK(text_len == 39 && memcmp(text, desk_text, text_len) == 0);
}

void header_cases(enum fence fence) {
    about_sheet("header", 0);
    layouts();
    steps();
    written_desk();
    if (fence == FENCE_ENDS)
        large_page(fence);
}
