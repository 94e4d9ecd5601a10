#include "replay.h"

#include <stdlib.h>
#include <string.h>

#include "check.h"
#include "write.h"

/* A page's line: where it starts and how many bytes it has. */
struct span {
    size_t start, length;
};

static struct span line_of(const struct expected *e, size_t start) {
    const uint8_t *end = memchr(e->page + start, '\n', e->page_len - start);
    CHECK(end != NULL);
    return (struct span){start, (size_t)(end + 1 - (e->page + start))};
}

/* A pair is one column: its second byte isn't counted. */
static size_t columns_of(const struct expected *e, struct span line) {
    size_t seconds = 0;
    for (size_t at = line.start; at < line.start + line.length; at++)
        seconds += e->page[at] == 0xB0;
    return line.length - seconds;
}

static size_t line_count(const struct expected *e) {
    size_t count = 0;
    for (size_t at = 0; at < e->page_len; at++)
        count += e->page[at] == '\n';
    return count;
}

static void check_printed(cagwoni_printed got, uint64_t number, uint64_t place, uint64_t written) {
    CHECK(got.number == number);
    CHECK(got.place == place);
    CHECK(got.written == written);
}

/* The buffer's first bytes are the text, and the rest is untouched. */
static void check_buffer(const struct lent *buffer, const uint8_t *text, size_t length) {
    CHECK(length == 0 || memcmp(buffer->bytes, text, length) == 0);
    CHECK(untouched(buffer, length));
}

static void check_none_measured(const cagwoni_measured *got, size_t from) {
    for (size_t at = from; at < CAGWONI_MOST_COLUMNS; at++) {
        CHECK(got->content[at] == 0);
        CHECK(!got->hidden[at]);
    }
}

static void page_into(const struct expected *e, size_t length, enum fence fence) {
    struct lent buffer = lend(length, fence);
    mark(&buffer);
    about_call("cagwoni_print_page, buffer of", length);
    cagwoni_printed got = cagwoni_print_page(e->sheet, e->sheet_len, buffer.bytes, length);
    int fits = e->number == 0 && e->page_len <= length;
    if (e->number != 0)
        check_printed(got, e->number, e->place, 0);
    else if (fits)
        check_printed(got, 0, 0, e->page_len);
    else
        check_printed(got, CAGWONI_BUFFER_SHORT, e->page_len, 0);
    check_buffer(&buffer, e->page, fits ? e->page_len : 0);
    give_back(&buffer);
}

static void line_into(const struct expected *e, size_t k, struct span line, size_t length, enum fence fence) {
    struct lent buffer = lend(length, fence);
    mark(&buffer);
    about_call("cagwoni_print_line", k);
    cagwoni_printed got = cagwoni_print_line(e->sheet, e->sheet_len, k, buffer.bytes, length);
    int fits = line.length <= length;
    if (fits)
        check_printed(got, 0, 0, line.length);
    else
        check_printed(got, CAGWONI_BUFFER_SHORT, line.length, 0);
    check_buffer(&buffer, e->page + line.start, fits ? line.length : 0);
    give_back(&buffer);
}

/* Answers the number of the first line that wasn't printed, and moves the line's start there. */
static size_t lines_into(const struct expected *e, size_t k, size_t *start, size_t length, enum fence fence) {
    struct lent buffer = lend(length, fence);
    mark(&buffer);
    about_call("cagwoni_print_lines", k);
    cagwoni_printed_lines got = cagwoni_print_lines(e->sheet, e->sheet_len, k, buffer.bytes, length);
    size_t next = k, end = *start;
    while (end < e->page_len && end + line_of(e, end).length - *start <= length) {
        end += line_of(e, end).length;
        next++;
    }
    size_t written = end - *start;
    CHECK(got.number == (written ? 0 : CAGWONI_BUFFER_SHORT));
    CHECK(got.place == (written ? 0 : line_of(e, *start).length));
    CHECK(got.written == written);
    CHECK(got.next == (written ? next : 0));
    check_buffer(&buffer, e->page + *start, written);
    give_back(&buffer);
    *start = end;
    return next;
}

/* A line call that is refused whatever room it has. */
static void position_refused(const struct expected *e, size_t k, uint64_t number, uint64_t place, enum fence fence) {
    for (size_t length = 0; length <= 100; length += 100) {
        struct lent buffer = lend(length, fence);
        mark(&buffer);
        about_call("cagwoni_print_line", k);
        check_printed(cagwoni_print_line(e->sheet, e->sheet_len, k, buffer.bytes, length), number, place, 0);
        CHECK(untouched(&buffer, 0));
        about_call("cagwoni_print_lines", k);
        cagwoni_printed_lines got = cagwoni_print_lines(e->sheet, e->sheet_len, k, buffer.bytes, length);
        check_printed((cagwoni_printed){got.number, got.place, got.written}, number, place, 0);
        CHECK(got.next == 0);
        CHECK(untouched(&buffer, 0));
        give_back(&buffer);
    }
}

/* Of a long page only some lines are asked for: a line's cost may grow with its number. */
static void each_line(const struct expected *e, size_t count, enum fence fence) {
    size_t step = count / 200 + 1, start = 0;
    for (size_t k = 0; k < count; k++) {
        struct span line = line_of(e, start);
        if (k % step == 0) {
            line_into(e, k, line, line.length, fence);
            line_into(e, k, line, line.length - 1, fence);
            line_into(e, k, line, line.length + 7, fence);
        }
        start += line.length;
    }
}

/* Lines differ in length where they differ in pairs: up to four in a buffer that they fill, and in one a byte short. */
static void lines_exactly(const struct expected *e, size_t count, enum fence fence) {
    size_t step = count / 50 + 1, start = 0;
    for (size_t k = 0; k < count; start += line_of(e, start).length, k++) {
        size_t end = start;
        for (size_t more = 0; k % step == 0 && more < 4 && end < e->page_len; more++) {
            end += line_of(e, end).length;
            for (size_t less = 0; less < 2; less++) {
                size_t from = start;
                lines_into(e, k, &from, end - start - less, fence);
            }
        }
    }
}

/* The whole page by buffers of one line, of two and a half, and of ten. */
static void lines_in_turn(const struct expected *e, size_t count, enum fence fence) {
    size_t longest = 1;
    for (size_t start = 0; start < e->page_len; start += line_of(e, start).length)
        longest = line_of(e, start).length > longest ? line_of(e, start).length : longest;
    size_t lengths[] = {longest, longest * 5 / 2, longest * 10};
    for (size_t at = 0; at < 3; at++) {
        size_t k = 0, start = 0;
        while (k < count && k < 600)
            k = lines_into(e, k, &start, lengths[at], fence);
    }
    size_t start = 0;
    if (count > 0)
        lines_into(e, 0, &start, line_of(e, 0).length - 1, fence);
}

static int any_set(const uint8_t *style, const size_t places[6]) {
    for (size_t at = 0; at < 6; at++)
        if (style[places[at]] != 0)
            return 1;
    return 0;
}

/* The widths call and the page must fit: each line is as wide as its columns and borders, and closed by its 0A. */
static void widths_fit(const struct expected *e, const cagwoni_measured *got) {
    static const size_t lefts[6] = {0, 4, 7, 11, 14, 18}, rights[6] = {3, 6, 10, 13, 17, 21};
    static const size_t junctions[6] = {2, 5, 9, 12, 16, 20};
    const uint8_t *style = e->sheet + 7 + e->sheet[5], *columns = style + 23;
    size_t visible = 0, length = 1 + any_set(style, lefts) + any_set(style, rights);
    CHECK(got->columns == style[22]);
    for (size_t at = 0; at < got->columns; at++) {
        const uint8_t *column = columns + 11 * at;
        CHECK(got->content[at] >= 1);
        CHECK(got->hidden[at] == (column[4] == 1));
        visible += !got->hidden[at];
        length += got->hidden[at] ? 0 : (size_t)got->content[at] + column[0] + column[1];
    }
    size_t between = visible > 1 ? visible - 1 : 0;
    size_t text = length + (any_set(style, junctions) ? between : 0), border = length + between;
    for (size_t start = 0; start < e->page_len; start += line_of(e, start).length) {
        struct span line = line_of(e, start);
        size_t wide = columns_of(e, line);
        CHECK(wide == text || (wide == border && (start == 0 || start + line.length == e->page_len)));
        CHECK(line.length <= CAGWONI_LONGEST_LINE);
    }
}

static void widths(const struct expected *e) {
    about_call("cagwoni_widths", 0);
    cagwoni_measured got = cagwoni_widths(e->sheet, e->sheet_len);
    CHECK(got.number == e->number);
    CHECK(got.place == e->place);
    CHECK(e->number == 0 || got.columns == 0);
    if (e->number == 0)
        widths_fit(e, &got);
    check_none_measured(&got, (size_t)got.columns);
    if (e->widths) {
        CHECK(got.columns == e->widths->columns);
        for (size_t at = 0; at < got.columns; at++) {
            CHECK(got.content[at] == e->widths->content[at]);
            CHECK(got.hidden[at] == e->widths->hidden[at]);
        }
    }
}

/* C reads a bool from a byte that is 0 or 1. */
static int are_bools(const void *bytes, size_t count) {
    for (const uint8_t *at = bytes; count > 0; at++, count--)
        if (*at > 1)
            return 0;
    return 1;
}

/* In characters, without the 0A. */
static size_t longest_line(const struct expected *e) {
    size_t longest = 0;
    for (size_t start = 0; start < e->page_len; start += line_of(e, start).length) {
        size_t wide = columns_of(e, line_of(e, start)) - 1;
        longest = wide > longest ? wide : longest;
    }
    return longest;
}

/* Whether a column with this constraint can have this step: a hidden one has none, any other has one. `Absolute` goes
 * beyond the first step only where it is percent of no target. */
static int can_lead_to(uint8_t constraint, uint8_t step) {
    enum { NONE = 1, HIDDEN = 2, CONTENT = 4, ABSOLUTE = 8, LOWER = 16, UPPER = 32, BOTH = 64 };
    enum { FIRST = CONTENT | ABSOLUTE | LOWER | BOTH, OPEN = NONE | LOWER | UPPER | BOTH };
    static const uint8_t constraints[9] = {
        HIDDEN, FIRST, LOWER | BOTH, UPPER | BOTH, OPEN, OPEN, OPEN, OPEN | ABSOLUTE, UPPER | BOTH};
    return step <= CAGWONI_STEP_UNTARGETED_UPPER && (constraints[step] >> constraint & 1);
}

/* Shares go by ones from the left: once a visible column isn't widened, none after it is. */
static void widened_from_the_left(const cagwoni_measured *widths, const cagwoni_reasoned *got) {
    int more = 1;
    for (size_t at = 0; at < got->columns; at++) {
        CHECK(!got->widened[at] || (more && !widths->hidden[at]));
        more = more && (got->widened[at] || widths->hidden[at]);
    }
}

/* What the sheet and the page themselves say of the reasons. */
static void reasons_fit(const struct expected *e, const cagwoni_reasoned *got) {
    const uint8_t *sheet = e->sheet, *columns = sheet + 7 + sheet[5] + 23;
    int arrangement = sheet[1], target = sheet[2] | sheet[3] << 8, shared = 0, any_widened = 0;
    cagwoni_measured widths = cagwoni_widths(e->sheet, e->sheet_len);
    CHECK(got->columns == widths.columns);
    for (size_t at = 0; at < got->columns; at++) {
        uint8_t step = got->step[at];
        CHECK(can_lead_to(columns[11 * at + 4], step));
        if (target == 0 || arrangement == 0)
            CHECK(step <= CAGWONI_STEP_FIRST || step >= CAGWONI_STEP_UNTARGETED_LONGEST);
        else
            CHECK(step <= CAGWONI_STEP_SHARE);
        shared = shared || step == CAGWONI_STEP_SHARE;
        any_widened = any_widened || got->widened[at];
    }
    CHECK(!any_widened || (arrangement == 2 && target != 0 && !shared));
    widened_from_the_left(&widths, got);
    CHECK(got->has_difference == (target != 0));
    CHECK(got->difference == (target == 0 ? 0 : target - (int32_t)longest_line(e)));
}

static void reasons(const struct expected *e) {
    about_call("cagwoni_reasons", 0);
    cagwoni_reasoned got = cagwoni_reasons(e->sheet, e->sheet_len);
    CHECK(are_bools(got.widened, sizeof got.widened) && are_bools(&got.has_difference, 1));
    CHECK(got.number == e->number);
    CHECK(got.place == e->place);
    if (e->number == 0)
        reasons_fit(e, &got);
    else
        CHECK(got.columns == 0 && !got.has_difference && got.difference == 0);
    for (size_t at = (size_t)got.columns; at < CAGWONI_MOST_COLUMNS; at++)
        CHECK(got.step[at] == 0 && !got.widened[at]);
}

static void check_and_count(const struct expected *e, size_t lines) {
    about_call("cagwoni_check", 0);
    cagwoni_checked checked = cagwoni_check(e->sheet, e->sheet_len);
    CHECK(checked.number == e->number);
    CHECK(checked.place == e->place);
    about_call("cagwoni_count", 0);
    cagwoni_counted counted = cagwoni_count(e->sheet, e->sheet_len);
    CHECK(counted.number == e->number);
    CHECK(counted.place == e->place);
    CHECK(counted.lines == lines);
    CHECK(counted.bytes == e->page_len);
}

static int is_pair(const struct expected *e, size_t at) {
    return at + 1 < e->page_len && e->page[at] == 0xC2 && e->page[at + 1] == 0xB0;
}

static void printable(const struct expected *e) {
    size_t good = 0;
    for (size_t at = 0; at < e->page_len; at++)
        if (is_pair(e, at))
            good += 2, at++;
        else
            good += e->page[at] == '\n' || (e->page[at] >= 0x20 && e->page[at] <= 0x7E);
    about_call("the page's bytes", 0);
    CHECK(good == e->page_len);
    CHECK(e->page_len == 0 || e->page[e->page_len - 1] == '\n');
}

static void every_call(const struct expected *e, enum fence fence) {
    size_t lines = line_count(e);
    printable(e);
    check_and_count(e, lines);
    widths(e);
    reasons(e);
    page_into(e, e->page_len, fence);
    page_into(e, e->page_len + 100, fence);
    page_into(e, 0, fence);
    if (e->page_len > 0)
        page_into(e, e->page_len - 1, fence);
    size_t positions[] = {lines, lines + 1, SIZE_MAX};
    for (size_t at = 0; at < 3; at++) {
        if (e->number == 0)
            position_refused(e, positions[at], CAGWONI_PAST_END, lines, fence);
        else
            position_refused(e, positions[at], e->number, e->place, fence);
    }
    each_line(e, lines, fence);
    lines_in_turn(e, lines, fence);
    lines_exactly(e, lines, fence);
    by_fixed_buffer(e, fence);
    if (e->number == 0)
        write_back(e->sheet, e->sheet_len, fence);
}

void replay(const struct expected *expected, enum fence fence) {
    struct lent sheet = lend(expected->sheet_len, fence);
    if (expected->sheet_len > 0)
        memcpy(sheet.bytes, expected->sheet, expected->sheet_len);
    struct expected moved = *expected;
    moved.sheet = sheet.bytes;
    every_call(&moved, fence);
    about_call("any: the sheet was written to", 0);
    CHECK(expected->sheet_len == 0 || memcmp(sheet.bytes, expected->sheet, expected->sheet_len) == 0);
    give_back(&sheet);
}

void replay_unknown(const uint8_t *sheet, size_t sheet_len, enum fence fence) {
    about_call("cagwoni_check", 0);
    cagwoni_checked checked = cagwoni_check(sheet, sheet_len);
    struct expected e = {.sheet = sheet, .sheet_len = sheet_len, .number = checked.number, .place = checked.place};
    CHECK(checked.number <= CAGWONI_BYTES_AFTER);
    CHECK(checked.place <= sheet_len);
    CHECK(checked.number != 0 || checked.place == 0);
    about_call("cagwoni_count", 0);
    e.page_len = (size_t)cagwoni_count(sheet, sheet_len).bytes;
    uint8_t *page = malloc(e.page_len + 1);
    if (!page)
        give_up("malloc");
    about_call("cagwoni_print_page", 0);
    if (e.number == 0)
        CHECK(cagwoni_print_page(sheet, sheet_len, page, e.page_len).number == 0);
    e.page = page;
    replay(&e, fence);
    free(page);
}
