/* The call that writes a sheet: the desk's table, each number with its place, tables that contradict themselves,
 * buffers of every kind of length. */
#include "write.h"

#include <stdlib.h>
#include <string.h>

#include "cases.h"
#include "check.h"

const uint16_t desk_numbers[37] = {1, 1, 20, 0, 0, 22, 2, 1, 1, 0, 0, 0, 0, 0, 0, 0, 1, 1, 0,
                                   0, 0, 0, 0, 0, 0, 0, 1, 0, 2, 0, 0, 1, 2, 0, 0, 1, 15};

const uint8_t desk_text[39] = {'+', '-', '+', '+', '|', '|', '|', '+', '=', '+', '+', '|', '|',
                               '|', '+', '-', '+', '+', '+', '-', '+', '+', 'a', 'b', 't', 'h',
                               'e', ' ', 'q', 'u', 'i', 'c', 'k', ' ', 'b', 'r', 'o', 'w', 'n'};

/* Where the field of each of the desk's numbers stands in its sheet. */
static const size_t desk_places[37] = {0,  1,  2,  4,  5,  6,  29, 30, 31, 32, 33, 34, 35, 36, 38, 39, 41, 42, 43,
                                       44, 45, 46, 47, 49, 50, 52, 53, 54, 55, 56, 57, 58, 59, 62, 63, 64, 65};

/* What the call must answer: a refusal, or number 0 and the sheet. */
struct wanted {
    uint64_t number, place;
    const uint8_t *sheet;
    size_t sheet_len;
};

static struct lent lend_copy(const void *bytes, size_t length, enum fence fence) {
    struct lent lent = lend(length, fence);
    if (length > 0)
        memcpy(lent.bytes, bytes, length);
    return lent;
}

static int same(const struct lent *lent, const void *bytes) {
    return lent->length == 0 || memcmp(lent->bytes, bytes, lent->length) == 0;
}

static cagwoni_printed call(const struct slices *s, struct lent *buffer, enum fence fence) {
    struct lent numbers = lend_copy(s->numbers, 2 * s->numbers_len, fence);
    struct lent text = lend_copy(s->text, s->text_len, fence);
    about_call("cagwoni_write_sheet, buffer of", buffer->length);
    mark(buffer);
    cagwoni_printed got = cagwoni_write_sheet((const uint16_t *)(const void *)numbers.bytes, s->numbers_len, text.bytes,
                                              s->text_len, buffer->bytes, buffer->length);
    CHECK(same(&numbers, s->numbers));
    CHECK(same(&text, s->text));
    give_back(&numbers);
    give_back(&text);
    return got;
}

static void check_printed(cagwoni_printed got, uint64_t number, uint64_t place, uint64_t written) {
    CHECK(got.number == number);
    CHECK(got.place == place);
    CHECK(got.written == written);
}

static void write_into(const struct slices *s, const struct wanted *w, size_t length, enum fence fence) {
    struct lent buffer = lend(length, fence);
    cagwoni_printed got = call(s, &buffer, fence);
    int fits = w->number == 0 && w->sheet_len <= length;
    if (w->number != 0)
        check_printed(got, w->number, w->place, 0);
    else if (fits)
        check_printed(got, 0, 0, w->sheet_len);
    else
        check_printed(got, CAGWONI_SHEET_NO_ROOM, w->sheet_len, 0);
    CHECK(!fits || memcmp(buffer.bytes, w->sheet, w->sheet_len) == 0);
    CHECK(untouched(&buffer, fits ? w->sheet_len : 0));
    give_back(&buffer);
}

/* A refusal of the table comes whatever room there is. */
static void writes(const struct slices *s, const struct wanted *w, enum fence fence) {
    size_t needed = w->number == 0 ? w->sheet_len : s->numbers_len + s->text_len;
    write_into(s, w, needed, fence);
    write_into(s, w, needed + 100, fence);
    write_into(s, w, needed > 0 ? needed - 1 : 0, fence);
    write_into(s, w, 0, fence);
}

static void release(struct slices *s) {
    free(s->numbers);
    free(s->text);
}

static struct slices room_for(size_t numbers, size_t text) {
    struct slices s = {.numbers = malloc(2 * numbers + 1), .text = malloc(text + 1)};
    if (!s.numbers || !s.text)
        give_up("malloc");
    return s;
}

static struct slices apart(const uint8_t *sheet, size_t sheet_len) {
    struct slices s = room_for(sheet_len, sheet_len);
    CHECK(take_apart(sheet, &s) == sheet_len);
    return s;
}

void write_back(const uint8_t *sheet, size_t sheet_len, enum fence fence) {
    struct slices s = apart(sheet, sheet_len);
    writes(&s, &(struct wanted){.sheet = sheet, .sheet_len = sheet_len}, fence);
    release(&s);
}

static void desk_itself(enum fence fence) {
    struct slices s = {(uint16_t *)desk_numbers, 37, (uint8_t *)desk_text, 39};
    struct wanted w = {.sheet = desk_sheet, .sheet_len = sizeof desk_sheet};
    about_sheet("desk, written", 0);
    writes(&s, &w, fence);
    for (size_t length = 0; length < 100; length++)
        write_into(&s, &w, length, fence);
    struct slices again = apart(desk_sheet, sizeof desk_sheet);
    CHECK(again.numbers_len == 37 && memcmp(again.numbers, desk_numbers, sizeof desk_numbers) == 0);
    CHECK(again.text_len == 39 && memcmp(again.text, desk_text, sizeof desk_text) == 0);
    release(&again);
}

/* The desk's numbers but for some; where the number is 0 they are in order. */
struct change {
    size_t count;
    uint16_t at[4], value[4];
    uint64_t number, place;
};

static const struct change changes[] = {
    {1, {0}, {0}, CAGWONI_EDITION, 0},
    {1, {0}, {2}, CAGWONI_EDITION, 0},
    {1, {0}, {256}, CAGWONI_EDITION, 0},
    {1, {0}, {257}, CAGWONI_EDITION, 0},
    {1, {0}, {65535}, CAGWONI_EDITION, 0},
    {1, {1}, {0}, 0, 0},
    {1, {1}, {2}, 0, 0},
    {1, {1}, {3}, CAGWONI_UNKNOWN_CODE, 1},
    {1, {1}, {256}, CAGWONI_UNKNOWN_CODE, 1},
    {1, {2}, {0}, 0, 0},
    {1, {2}, {400}, 0, 0},
    {1, {2}, {401}, CAGWONI_BEYOND_LIMITS, 2},
    {1, {2}, {65535}, CAGWONI_BEYOND_LIMITS, 2},
    {1, {3}, {31}, CAGWONI_NOT_PRINTABLE, 4},
    {1, {3}, {32}, 0, 0},
    {1, {3}, {126}, 0, 0},
    {1, {3}, {127}, CAGWONI_NOT_PRINTABLE, 4},
    {1, {3}, {0xC2}, CAGWONI_NOT_PRINTABLE, 4},
    {1, {3}, {256}, CAGWONI_NOT_PRINTABLE, 4},
    {1, {3}, {256 + 32}, CAGWONI_NOT_PRINTABLE, 4},
    /* The columns. */
    {1, {7}, {20}, 0, 0},
    {1, {7}, {21}, CAGWONI_BEYOND_LIMITS, 30},
    {1, {7}, {256}, CAGWONI_BEYOND_LIMITS, 30},
    {1, {8}, {20}, 0, 0},
    {1, {8}, {21}, CAGWONI_BEYOND_LIMITS, 31},
    {1, {8}, {256 + 20}, CAGWONI_BEYOND_LIMITS, 31},
    {1, {9}, {'/'}, 0, 0},
    {1, {9}, {0xB0}, CAGWONI_NOT_PRINTABLE, 32},
    {1, {10}, {3}, 0, 0},
    {1, {10}, {4}, CAGWONI_UNKNOWN_CODE, 33},
    {1, {10}, {256}, CAGWONI_UNKNOWN_CODE, 33},
    {1, {11}, {6}, 0, 0},
    {1, {11}, {7}, CAGWONI_UNKNOWN_CODE, 34},
    {1, {11}, {256}, CAGWONI_UNKNOWN_CODE, 34},
    {2, {11, 12}, {3, 1}, 0, 0},
    {2, {11, 12}, {3, 2}, CAGWONI_UNKNOWN_CODE, 35},
    {2, {11, 12}, {3, 256}, CAGWONI_UNKNOWN_CODE, 35},
    {2, {11, 13}, {3, 400}, 0, 0},
    {2, {11, 13}, {3, 401}, CAGWONI_BEYOND_LIMITS, 36},
    {3, {11, 12, 13}, {5, 1, 65535}, 0, 0},
    {2, {11, 15}, {6, 400}, 0, 0},
    {2, {11, 15}, {6, 401}, CAGWONI_BEYOND_LIMITS, 39},
    {3, {11, 14, 15}, {6, 1, 401}, 0, 0},
    {2, {11, 14}, {6, 2}, CAGWONI_UNKNOWN_CODE, 38},
    /* Unused widths: both of 0 to 2, the second of 3 to 5. */
    {1, {12}, {1}, CAGWONI_UNUSED_NOT_ZERO, 35},
    {1, {12}, {256}, CAGWONI_UNUSED_NOT_ZERO, 35},
    {1, {13}, {1}, CAGWONI_UNUSED_NOT_ZERO, 36},
    {1, {13}, {256}, CAGWONI_UNUSED_NOT_ZERO, 37},
    {1, {13}, {257}, CAGWONI_UNUSED_NOT_ZERO, 36},
    {1, {13}, {65535}, CAGWONI_UNUSED_NOT_ZERO, 36},
    {1, {14}, {2}, CAGWONI_UNUSED_NOT_ZERO, 38},
    {2, {11, 15}, {5, 512}, CAGWONI_UNUSED_NOT_ZERO, 40},
    {2, {11, 14}, {4, 1}, CAGWONI_UNUSED_NOT_ZERO, 38},
    {2, {11, 12}, {2, 1}, CAGWONI_UNUSED_NOT_ZERO, 35},
    {1, {16}, {21}, CAGWONI_BEYOND_LIMITS, 41},
    {1, {24}, {256}, CAGWONI_UNUSED_NOT_ZERO, 51},
    /* The row. */
    {1, {27}, {255}, 0, 0},
    {1, {27}, {256}, CAGWONI_BEYOND_LIMITS, 54},
    {1, {27}, {65535}, CAGWONI_BEYOND_LIMITS, 54},
    {1, {29}, {' '}, 0, 0},
    {1, {29}, {7}, CAGWONI_NOT_PRINTABLE, 56},
    {1, {30}, {1}, 0, 0},
    {1, {30}, {4}, CAGWONI_UNKNOWN_CODE, 57},
    {1, {33}, {65535}, CAGWONI_NOT_PRINTABLE, 62},
    {1, {34}, {256 + 3}, CAGWONI_UNKNOWN_CODE, 63},
    /* The first fault from the left. */
    {2, {0, 1}, {2, 9}, CAGWONI_EDITION, 0},
    {2, {2, 3}, {401, 7}, CAGWONI_BEYOND_LIMITS, 2},
    {3, {12, 13, 16}, {1, 1, 21}, CAGWONI_UNUSED_NOT_ZERO, 35},
    {2, {30, 27}, {4, 256}, CAGWONI_BEYOND_LIMITS, 54},
};

/* The target, and the values of widths. */
static int has_two_bytes(size_t at) { return at == 2 || at == 13 || at == 15 || at == 22 || at == 24; }

static void changed_numbers(enum fence fence) {
    uint16_t numbers[37];
    uint8_t sheet[sizeof desk_sheet];
    struct slices s = {numbers, 37, (uint8_t *)desk_text, 39};
    for (size_t index = 0; index < sizeof changes / sizeof *changes; index++) {
        const struct change *c = &changes[index];
        struct wanted w = {c->number, c->place, sheet, sizeof sheet};
        memcpy(numbers, desk_numbers, sizeof numbers);
        memcpy(sheet, desk_sheet, sizeof sheet);
        for (size_t at = 0; at < c->count; at++) {
            uint8_t *field = &sheet[desk_places[c->at[at]]];
            numbers[c->at[at]] = c->value[at];
            field[0] = (uint8_t)c->value[at];
            if (has_two_bytes(c->at[at]))
                field[1] = (uint8_t)(c->value[at] >> 8);
        }
        about_sheet("desk with other numbers, case", index);
        writes(&s, &w, fence);
    }
}

/* A table that is built up together with its sheet: each count and length is taken as one byte there. */
struct built {
    struct slices slices;
    uint8_t *sheet;
    size_t sheet_len;
};

static struct built build(void) {
    enum { MOST = 70000 };
    struct built b = {.slices = room_for(MOST, MOST), .sheet = malloc(2 * MOST)};
    if (!b.sheet)
        give_up("malloc");
    return b;
}

static void put(struct built *b, uint16_t number) {
    b->slices.numbers[b->slices.numbers_len++] = number;
    b->sheet[b->sheet_len++] = (uint8_t)number;
}

static void put_word(struct built *b, uint16_t number) {
    put(b, number);
    b->sheet[b->sheet_len++] = (uint8_t)(number >> 8);
}

static void put_text(struct built *b, const char *bytes, size_t length) {
    put(b, (uint16_t)length);
    memcpy(b->slices.text + b->slices.text_len, bytes, length);
    memcpy(b->sheet + b->sheet_len, bytes, length);
    b->slices.text_len += length;
    b->sheet_len += length;
}

static void put_many(struct built *b, char byte, size_t length) {
    char *bytes = malloc(length + 1);
    if (!bytes)
        give_up("malloc");
    memset(bytes, byte, length);
    put_text(b, bytes, length);
    free(bytes);
}

/* The edition, nothing set, and an indicator and a style of so many characters. */
static void put_head(struct built *b, size_t indicator, size_t style) {
    put(b, 1);
    put(b, 0);
    put_word(b, 0);
    put(b, 0);
    put_many(b, '.', indicator);
    put_many(b, '-', style);
}

static void put_columns(struct built *b, uint16_t count) {
    put(b, count);
    for (; count > 0; count--) {
        for (size_t at = 0; at < 5; at++)
            put(b, 0);
        for (size_t width = 0; width < 2; width++) {
            put(b, 0);
            put_word(b, 0);
        }
    }
}

static void put_row(struct built *b, uint16_t cells, uint16_t lines, size_t length) {
    put(b, 0);
    put(b, cells);
    for (; cells > 0; cells--) {
        put(b, 0);
        put(b, 0);
        put(b, lines);
        for (uint16_t line = 0; line < lines; line++)
            put_many(b, 'a', length);
    }
}

static void written(struct built *b, uint64_t number, uint64_t place, enum fence fence) {
    writes(&b->slices, &(struct wanted){number, place, b->sheet, b->sheet_len}, fence);
    release(&b->slices);
    free(b->sheet);
}

/* So many of each; one row of equal cells, of which each has equal lines. */
struct counts {
    size_t indicator, style;
    uint16_t columns, headers, rows, cells, lines;
    size_t length;
    uint64_t number, place;
};

static const struct counts counted[] = {
    {0, 22, 0, 0, 0, 0, 0, 0, 0, 0},
    {8, 22, 0, 0, 0, 0, 0, 0, 0, 0},
    {9, 22, 0, 0, 0, 0, 0, 0, CAGWONI_BEYOND_LIMITS, 5},
    {256, 22, 0, 0, 0, 0, 0, 0, CAGWONI_BEYOND_LIMITS, 5},
    {0, 0, 0, 0, 0, 0, 0, 0, CAGWONI_BEYOND_LIMITS, 6},
    {3, 21, 0, 0, 0, 0, 0, 0, CAGWONI_BEYOND_LIMITS, 9},
    {3, 23, 0, 0, 0, 0, 0, 0, CAGWONI_BEYOND_LIMITS, 9},
    {0, 256 + 22, 0, 0, 0, 0, 0, 0, CAGWONI_BEYOND_LIMITS, 6},
    {0, 22, 12, 0, 0, 0, 0, 0, 0, 0},
    {0, 22, 13, 0, 0, 0, 0, 0, CAGWONI_BEYOND_LIMITS, 29},
    {0, 22, 256, 0, 0, 0, 0, 0, CAGWONI_BEYOND_LIMITS, 29},
    {0, 22, 1, 1, 0, 0, 0, 0, 0, 0},
    {0, 22, 1, 2, 0, 0, 0, 0, CAGWONI_BEYOND_LIMITS, 41},
    {0, 22, 1, 256, 0, 0, 0, 0, CAGWONI_BEYOND_LIMITS, 41},
    {0, 22, 0, 0, 100, 0, 0, 0, 0, 0},
    {0, 22, 0, 0, 101, 0, 0, 0, CAGWONI_BEYOND_LIMITS, 31},
    {0, 22, 0, 0, 256, 0, 0, 0, CAGWONI_BEYOND_LIMITS, 31},
    {0, 22, 12, 0, 1, 12, 1, 1, 0, 0},
    {0, 22, 12, 0, 1, 13, 1, 1, CAGWONI_BEYOND_LIMITS, 165},
    {0, 22, 12, 0, 1, 256, 1, 0, CAGWONI_BEYOND_LIMITS, 165},
    {0, 22, 12, 0, 1, 256 + 12, 1, 0, CAGWONI_BEYOND_LIMITS, 165},
    {0, 22, 11, 0, 1, 12, 1, 1, CAGWONI_MORE_CELLS, 154},
    {0, 22, 11, 0, 1, 13, 1, 1, CAGWONI_BEYOND_LIMITS, 154},
    {0, 22, 0, 1, 0, 1, 1, 1, CAGWONI_MORE_CELLS, 32},
    {0, 22, 1, 0, 1, 1, 0, 0, CAGWONI_BEYOND_LIMITS, 47},
    {0, 22, 1, 0, 1, 1, 1, 0, 0, 0},
    {0, 22, 1, 0, 1, 1, 8, 0, 0, 0},
    {0, 22, 1, 0, 1, 1, 9, 0, CAGWONI_BEYOND_LIMITS, 47},
    {0, 22, 1, 0, 1, 1, 256 + 8, 0, CAGWONI_BEYOND_LIMITS, 47},
    {0, 22, 1, 0, 1, 1, 1, 200, 0, 0},
    {0, 22, 1, 0, 1, 1, 1, 201, CAGWONI_BEYOND_LIMITS, 48},
    {0, 22, 1, 0, 1, 1, 1, 256, CAGWONI_BEYOND_LIMITS, 48},
    {0, 22, 1, 0, 1, 1, 1, 32719, CAGWONI_BEYOND_LIMITS, 48},
    {0, 22, 1, 0, 1, 1, 1, 32720, CAGWONI_TOO_LONG, 32768},
    {32736, 22, 0, 0, 0, 0, 0, 0, CAGWONI_BEYOND_LIMITS, 5},
    {32737, 22, 0, 0, 0, 0, 0, 0, CAGWONI_TOO_LONG, 32768},
    {65535, 22, 0, 0, 0, 0, 0, 0, CAGWONI_TOO_LONG, 32768},
    {0, 22, 2976, 0, 0, 0, 0, 0, CAGWONI_BEYOND_LIMITS, 29},
    {0, 22, 2977, 0, 0, 0, 0, 0, CAGWONI_TOO_LONG, 32768},
    {0, 22, 0, 0, 16368, 0, 0, 0, CAGWONI_BEYOND_LIMITS, 31},
    {0, 22, 0, 0, 16369, 0, 0, 0, CAGWONI_TOO_LONG, 32768},
};

static void counts_at_their_limits(enum fence fence) {
    for (size_t index = 0; index < sizeof counted / sizeof *counted; index++) {
        const struct counts *c = &counted[index];
        struct built b = build();
        put_head(&b, c->indicator, c->style);
        put_columns(&b, c->columns);
        put(&b, c->headers);
        for (uint16_t header = 0; header < c->headers; header++)
            put_row(&b, c->cells, c->lines, c->length);
        put(&b, c->rows);
        for (uint16_t row = 0; row < c->rows; row++)
            put_row(&b, c->cells, c->lines, c->length);
        about_sheet("counts, case", index);
        written(&b, c->number, c->place, fence);
    }
}

/* Twenty rows of one cell with 8 lines of 200 bytes, and one more cell that fills the sheet up. */
static void around_the_longest(enum fence fence) {
    for (size_t over = 0; over < 2; over++) {
        for (uint16_t edition = 1; edition <= 2; edition++) {
            struct built b = build();
            put_head(&b, 3, 22);
            put_columns(&b, 2);
            put(&b, 0);
            put(&b, 22);
            for (size_t row = 0; row < 20; row++)
                put_row(&b, 1, 8, 200);
            put_row(&b, 2, 1, 200);
            put_row(&b, 1, 1, CAGWONI_LONGEST_SHEET + over - b.sheet_len - 6);
            b.slices.numbers[0] = edition;
            about_sheet("over 32,768 bytes by", over);
            CHECK(b.sheet_len == CAGWONI_LONGEST_SHEET + over);
            uint64_t number = edition == 2 ? CAGWONI_EDITION : 0;
            written(&b, over ? CAGWONI_TOO_LONG : number, over ? CAGWONI_LONGEST_SHEET : 0, fence);
        }
    }
}

/* The lines of one cell. */
struct texts {
    const char *first, *second;
    size_t first_len, second_len;
    uint64_t number, place;
};

static const struct texts texts[] = {
    {" ~", "", 2, 0, 0, 0},
    {"A\x07", "", 2, 0, CAGWONI_NOT_PRINTABLE, 50},
    {"A\0", "", 2, 0, CAGWONI_NOT_PRINTABLE, 50},
    {"A\x7F", "", 2, 0, CAGWONI_NOT_PRINTABLE, 50},
    {"\xFF", "", 1, 0, CAGWONI_NOT_PRINTABLE, 49},
    {"\xC2\xB0", "21.5\xC2\xB0" "C", 2, 7, 0, 0},
    {"\xC2", "", 1, 0, CAGWONI_NOT_PRINTABLE, 49},
    {"a\xC2", "\xB0", 2, 1, CAGWONI_NOT_PRINTABLE, 50},
    {"a", "\xB0", 1, 1, CAGWONI_NOT_PRINTABLE, 51},
    {"\xC2\xB0", "\xB0", 2, 1, CAGWONI_NOT_PRINTABLE, 52},
    {"\xC2 ", "", 2, 0, CAGWONI_NOT_PRINTABLE, 49},
    {"\xC2\xC2\xB0", "", 3, 0, CAGWONI_NOT_PRINTABLE, 49},
    {"\xC2\xB0\xB0", "", 3, 0, CAGWONI_NOT_PRINTABLE, 51},
    {"\xC2\xB0\xC2", "", 3, 0, CAGWONI_NOT_PRINTABLE, 51},
};

static void texts_of_a_cell(enum fence fence) {
    for (size_t index = 0; index < sizeof texts / sizeof *texts; index++) {
        const struct texts *t = &texts[index];
        struct built b = build();
        put_head(&b, 0, 22);
        put_columns(&b, 1);
        put(&b, 0);
        put(&b, 1);
        put(&b, 0);
        put(&b, 1);
        put(&b, 0);
        put(&b, 0);
        put(&b, 2);
        put_text(&b, t->first, t->first_len);
        put_text(&b, t->second, t->second_len);
        about_sheet("texts of a cell, case", index);
        written(&b, t->number, t->place, fence);
    }
}

/* Indicator and style are ASCII, and a style character may be unset. The last C2 has a B0 behind it. */
static void other_texts(enum fence fence) {
    static const uint8_t bytes[] = {0, 31, 32, 126, 127, 0xB0, 0xC2, 255, 0xC2};
    for (size_t at = 0; at < sizeof bytes; at++) {
        for (size_t in_style = 0; in_style < 2; in_style++) {
            struct built b = build();
            put_head(&b, 4, 22);
            put_columns(&b, 0);
            put(&b, 0);
            put(&b, 0);
            size_t place = in_style ? 11 + 5 : 6 + 1;
            uint8_t *text = &b.slices.text[in_style ? 4 + 5 : 1];
            b.sheet[place] = text[0] = bytes[at];
            if (at == sizeof bytes - 1)
                text[1] = 0xB0;
            int good = (bytes[at] >= 32 && bytes[at] <= 126) || (in_style && bytes[at] == 0);
            about_sheet(in_style ? "style with byte" : "indicator with byte", bytes[at]);
            written(&b, good ? 0 : CAGWONI_NOT_PRINTABLE, good ? 0 : place, fence);
        }
    }
}

static void contradicting(const uint16_t *numbers, size_t numbers_len, const uint8_t *text, size_t text_len,
                          uint64_t number, uint64_t place, enum fence fence) {
    struct slices s = {(uint16_t *)numbers, numbers_len, (uint8_t *)text, text_len};
    writes(&s, &(struct wanted){.number = number, .place = place}, fence);
}

/* Each prefix of the numbers, each prefix of the text, and more of either. */
static void cut_and_grown(enum fence fence) {
    uint16_t numbers[40] = {0};
    uint8_t text[42] = {0};
    memcpy(numbers, desk_numbers, sizeof desk_numbers);
    memcpy(text, desk_text, sizeof desk_text);
    for (size_t taken = 0; taken < 37; taken++) {
        about_sheet("desk, first numbers:", taken);
        uint64_t place = taken;
        contradicting(numbers, taken, text, 39, CAGWONI_ENDS_EARLY, place, fence);
        contradicting(numbers, taken, text, 42, CAGWONI_ENDS_EARLY, place, fence);
    }
    for (size_t taken = 0; taken < 39; taken++) {
        about_sheet("desk, first bytes of text:", taken);
        uint64_t place = taken < 22 ? 6 : taken < 24 ? 33 : 37;
        contradicting(numbers, 37, text, taken, CAGWONI_ENDS_EARLY, place, fence);
        contradicting(numbers, 40, text, taken, CAGWONI_ENDS_EARLY, place, fence);
    }
    about_sheet("desk, numbers or text left over", 0);
    for (size_t more = 1; more <= 3; more++) {
        contradicting(numbers, 37 + more, text, 39, CAGWONI_BYTES_AFTER, 37, fence);
        contradicting(numbers, 37, text, 39 + more, CAGWONI_BYTES_AFTER, 37, fence);
        contradicting(numbers, 37 + more, text, 39 + more, CAGWONI_BYTES_AFTER, 37, fence);
    }
}

/* 1 and 9 come before a fault in a field, and before 2. */
static void contradicting_first(enum fence fence) {
    uint16_t numbers[37];
    static const uint16_t bare[] = {2, 9, 401, 7, 65535, 65535, 65535};
    memcpy(numbers, desk_numbers, sizeof numbers);
    numbers[0] = 2;
    about_sheet("desk of edition 2, contradicting itself", 0);
    contradicting(numbers, 37, desk_text, 38, CAGWONI_ENDS_EARLY, 37, fence);
    contradicting(numbers, 37, desk_text, 39, CAGWONI_EDITION, 0, fence);
    contradicting(numbers, 36, desk_text, 39, CAGWONI_ENDS_EARLY, 36, fence);
    /* A row count of 0 leaves the row over. */
    numbers[26] = 0;
    contradicting(numbers, 37, desk_text, 39, CAGWONI_BYTES_AFTER, 27, fence);
    /* As many rows as no slice can have. */
    numbers[26] = 65535;
    contradicting(numbers, 37, desk_text, 39, CAGWONI_ENDS_EARLY, 37, fence);
    about_sheet("great counts, nothing behind them", 0);
    for (size_t taken = 0; taken < sizeof bare / sizeof *bare; taken++)
        contradicting(bare, taken, NULL, 0, CAGWONI_ENDS_EARLY, taken < 5 ? taken : 5, fence);
    uint8_t *text = calloc(70000, 1);
    if (!text)
        give_up("calloc");
    about_sheet("70,000 bytes of text left over", 0);
    contradicting(desk_numbers, 37, text, 70000, CAGWONI_BYTES_AFTER, 37, fence);
    contradicting(bare, 5, text, 70000, CAGWONI_ENDS_EARLY, 5, fence);
    contradicting(bare, 5, text, 65535, CAGWONI_ENDS_EARLY, 5, fence);
    contradicting(bare, 6, text, 70000, CAGWONI_ENDS_EARLY, 6, fence);
    free(text);
}

/* A null pointer with length 0: as numbers, as text, as the buffer. */
static void null_pointers(void) {
    uint8_t sheet[100];
    struct lent buffer = {.bytes = sheet, .length = sizeof sheet};
    about_sheet("a null pointer", 0);
    about_call("cagwoni_write_sheet", 0);
    mark(&buffer);
    check_printed(cagwoni_write_sheet(NULL, 0, NULL, 0, NULL, 0), CAGWONI_ENDS_EARLY, 0, 0);
    check_printed(cagwoni_write_sheet(NULL, 0, desk_text, 39, sheet, sizeof sheet), CAGWONI_ENDS_EARLY, 0, 0);
    check_printed(cagwoni_write_sheet(desk_numbers, 37, NULL, 0, sheet, sizeof sheet), CAGWONI_ENDS_EARLY, 6, 0);
    check_printed(cagwoni_write_sheet(desk_numbers, 37, desk_text, 39, NULL, 0), CAGWONI_SHEET_NO_ROOM, 81, 0);
    CHECK(untouched(&buffer, 0));
}

/* Of a refusal the place must be one that the table can have; of a sheet the check and a walk must know it. */
void write_unknown(const struct slices *slices, enum fence fence) {
    struct lent buffer = lend(CAGWONI_LONGEST_SHEET, fence);
    cagwoni_printed got = call(slices, &buffer, fence);
    struct wanted w = {.number = got.number, .place = got.place, .sheet = buffer.bytes, .sheet_len = got.written};
    size_t most = 1 + slices->numbers_len * 11 / 9 + slices->text_len;
    CHECK(got.number <= CAGWONI_BYTES_AFTER);
    CHECK(untouched(&buffer, got.written));
    if (got.number == CAGWONI_ENDS_EARLY || got.number == CAGWONI_BYTES_AFTER)
        CHECK(got.place <= slices->numbers_len);
    else if (got.number == CAGWONI_TOO_LONG)
        CHECK(got.place == CAGWONI_LONGEST_SHEET && most > CAGWONI_LONGEST_SHEET);
    else
        CHECK(got.number == 0 ? got.place == 0 && got.written <= most : got.place < most && got.written == 0);
    writes(slices, &w, fence);
    if (got.number == 0) {
        struct slices again = apart(buffer.bytes, got.written);
        CHECK(cagwoni_check(buffer.bytes, got.written).number == 0);
        CHECK(again.numbers_len == slices->numbers_len && again.text_len == slices->text_len);
        CHECK(memcmp(again.numbers, slices->numbers, 2 * again.numbers_len) == 0);
        CHECK(memcmp(again.text, slices->text, again.text_len) == 0);
        release(&again);
    }
    give_back(&buffer);
}

void write_cases(enum fence fence) {
    desk_itself(fence);
    changed_numbers(fence);
    counts_at_their_limits(fence);
    around_the_longest(fence);
    texts_of_a_cell(fence);
    other_texts(fence);
    cut_and_grown(fence);
    contradicting_first(fence);
    null_pointers();
}
