/* Cagwoni: a sheet becomes a page of printable ASCII and degree signs, or is refused with a number and a place. And an
 * editor's table becomes a sheet, or is refused likewise.
 *
 * A sheet is `sheet_len` bytes from `sheet` on (docs/FORMAT.md says what they mean); a page buffer is `page_len` bytes
 * from `page` on. `cagwoni_write_sheet` has no sheet to read: it reads a table, which is `numbers_len` numbers from
 * `numbers` on and `text_len` bytes from `text` on, and its buffer is `sheet_len` bytes from `sheet` on. A pointer may
 * be null if its length is 0; `numbers` is aligned as C aligns a uint16_t. No call reads outside its sheet or table, or
 * reads or writes outside its buffer. No call keeps a pointer, allocates, or has state of its own: calls may run in
 * several threads at once. Every call returns, whatever the bytes, numbers, lengths and positions are.
 *
 * The host sees to two things, on which all of this rests:
 *   - The buffer overlaps nothing that the call reads: not the sheet, or neither the numbers nor the text.
 *   - While a call runs, nobody writes the sheet or the table, and nobody reads or writes the buffer: no other thread,
 *     interrupt, signal handler or device. Several calls may read one sheet or table at once; each has a buffer of its
 *     own.
 * A call goes through its sheet or table more than once. If that changes in between, by an overlap or by somebody else,
 * nothing is promised any more: the call may write outside the buffer.
 *
 * A page is lines of characters, each closed by byte 0A. A character is a byte from 20 to 7E (hexadecimal) or the pair
 * C2 B0, the degree sign as UTF-8 writes it: one character, one column, two bytes. Only the text of cells, the header's
 * too, can bring a pair in, and none is ever cut in two. Lengths in the sheet, line and buffer lengths, byte counts and
 * places count bytes; content widths and the difference to the target count characters. So lines of one page that are
 * equally wide can have different lengths. Lines are counted from 0, and a line's bytes include its 0A.
 *
 * A refused call answers a number other than 0, a place and a written count of 0; its other counts, widths, steps and
 * the difference are 0, no column is marked hidden or widened, and the buffer keeps every byte. Otherwise number and
 * place are 0, and the bytes of the buffer after the written count are untouched.
 *
 * From the input; every call that reads a sheet gives these, and they come before 21 and 20. 2 is tested first, then
 * fields left to right, 1 before any other at a field, then 9. The place is the field's first byte unless said; each
 * character is a field of its own, and a pair in the text of a cell is one. `cagwoni_write_sheet` gives 1 to 9 too, in
 * another order, and says what they mean of a table.
 *   CAGWONI_ENDS_EARLY        1  sheet ends before a field is whole, an empty sheet included (place: its length)
 *   CAGWONI_TOO_LONG          2  sheet over 32,768 bytes (place 32,768)
 *   CAGWONI_EDITION           3  edition not 1
 *   CAGWONI_UNKNOWN_CODE      4  unknown code (arrangement, alignment, constraint, used unit)
 *   CAGWONI_BEYOND_LIMITS     5  count, length or value beyond its limits
 *   CAGWONI_NOT_PRINTABLE     6  byte neither printable nor an allowed 0; in the text of a cell C2 without B0 after it
 *                                in the same line (place: the C2, also if it is the line's last byte and the sheet
 *                                ends there), and B0 without C2 before it; elsewhere either of them
 *   CAGWONI_MORE_CELLS        7  more cells than columns (cell count at most 12)
 *   CAGWONI_UNUSED_NOT_ZERO   8  unused width byte not zero (place: that byte)
 *   CAGWONI_BYTES_AFTER       9  bytes after the last row (place: the first of them)
 * From the state of the call; 21 is tested before 20. 22 comes from `cagwoni_write_sheet` alone.
 *   CAGWONI_BUFFER_SHORT     20  buffer shorter than the page or line (place: bytes needed)
 *   CAGWONI_PAST_END         21  position at or past the line count (place: that count)
 *   CAGWONI_SHEET_NO_ROOM    22  buffer shorter than the sheet (place: bytes needed)
 *
 * A page can be far larger than its sheet: one of 142,653,555 bytes from a sheet of 32,424 was seen. `cagwoni_count`
 * gives the size, and the host compares it with what it has before it asks for a buffer. A buffer of a fixed size, at
 * least CAGWONI_LONGEST_LINE, prints every page:
 *
 *     static uint8_t part[CAGWONI_LONGEST_LINE];
 *     size_t line = 0;
 *     for (;;) {
 *         cagwoni_printed_lines p = cagwoni_print_lines(sheet, sheet_len, line, part, sizeof part);
 *         if (p.number == CAGWONI_PAST_END)
 *             break;                              // the page is whole; it may have no line at all
 *         if (p.number != 0)
 *             return refused(p.number, p.place);  // 1 to 9, and only at the first turn; 20 can't come
 *         put_out(part, p.written);
 *         line = p.next;
 *     }
 *
 * The sheet must stay the same from the first turn to the last. A call has to find its first line anew, so a larger
 * buffer saves time (docs/PERFORMANCE.md). examples/host.c is a whole host.
 *
 * The library, target/staticlib/libgateway.a, is code for x86-64 with the calling convention of System V (Linux), and
 * it is position independent. Of the host it needs `memcpy` and `memset` alone, as C has them; it makes no system call
 * and has no data that can be written. Link it after what calls it:
 *     cc -I include host.c target/staticlib/libgateway.a -o host
 * It uses the vector registers xmm0 to xmm15 (SSE2) and none wider, and the red zone, the 128 bytes below the stack
 * pointer. Where interrupts don't keep these, as in a kernel or with no system at all, the host lets none in during a
 * call, or serves it on another stack and saves the registers.
 *
 * Stack: see CAGWONI_CHECK_STACK and those after it.
 */
#ifndef CAGWONI_H
#define CAGWONI_H

#include <stdbool.h>
#include <stddef.h>
#include <stdint.h>

#ifdef __cplusplus
extern "C" {
#endif

enum {
    CAGWONI_ENDS_EARLY = 1,
    CAGWONI_TOO_LONG = 2,
    CAGWONI_EDITION = 3,
    CAGWONI_UNKNOWN_CODE = 4,
    CAGWONI_BEYOND_LIMITS = 5,
    CAGWONI_NOT_PRINTABLE = 6,
    CAGWONI_MORE_CELLS = 7,
    CAGWONI_UNUSED_NOT_ZERO = 8,
    CAGWONI_BYTES_AFTER = 9,
    CAGWONI_BUFFER_SHORT = 20,
    CAGWONI_PAST_END = 21,
    CAGWONI_SHEET_NO_ROOM = 22
};

enum {
    CAGWONI_LONGEST_SHEET = 32768,
    CAGWONI_MOST_COLUMNS = 12,
    /* A buffer of this size takes any line, its 0A included: the bound that is proved (`longest_line` in
     * crates/rules/specs/Limits.antt, and 1), 950 bytes a column of which up to 100 are the second ones of pairs. */
    CAGWONI_LONGEST_LINE = 11401
};

/* Bytes of stack that are enough for each call, from its return address on, the red zone included. They are counted in
 * the compiled code, not proved. What the host's memcpy and memset take comes on top, and so does the loader's work at
 * their first call in a program that isn't linked with -z now. */
enum {
    CAGWONI_CHECK_STACK = 1024,
    CAGWONI_WIDTHS_STACK = 4096,
    CAGWONI_REASONS_STACK = 8192,
    CAGWONI_COUNT_STACK = 8192,
    CAGWONI_PRINT_PAGE_STACK = 8192,
    CAGWONI_PRINT_LINE_STACK = 8192,
    CAGWONI_PRINT_LINES_STACK = 8192,
    CAGWONI_WRITE_SHEET_STACK = 1024
};

typedef struct {
    uint64_t number, place;
} cagwoni_checked;

typedef struct {
    uint64_t number, place, lines, bytes;
} cagwoni_counted;

/* This answer and the next are the only ones with padding, here four bytes at its end. Padding may hold anything:
 * compare fields, not bytes. */
typedef struct {
    uint64_t number, place, columns;
    uint16_t content[CAGWONI_MOST_COLUMNS];
    bool hidden[CAGWONI_MOST_COLUMNS];
} cagwoni_measured;

/* Three bytes of padding stand between the last two fields. */
typedef struct {
    uint64_t number, place, columns;
    uint8_t step[CAGWONI_MOST_COLUMNS];
    bool widened[CAGWONI_MOST_COLUMNS];
    bool has_difference;
    int32_t difference;
} cagwoni_reasoned;

typedef struct {
    uint64_t number, place, written;
} cagwoni_printed;

typedef struct {
    uint64_t number, place, written, next;
} cagwoni_printed_lines;

/* Checks a sheet. It is accepted (number 0) when none of the numbers 1 to 9 applies to it; each call below that reads
 * a sheet refuses the same ones with the same number and place. */
cagwoni_checked cagwoni_check(const uint8_t *sheet, size_t sheet_len);

/* The page's line count and byte count, the closing bytes 0A included. */
cagwoni_counted cagwoni_count(const uint8_t *sheet, size_t sheet_len);

/* The count of columns, and for each of them the content width, which counts characters and leaves padding out, and
 * whether the column is hidden. Entries past the columns are 0 and not hidden. */
cagwoni_measured cagwoni_widths(const uint8_t *sheet, size_t sheet_len);

/* The step that set a column's content width, and what changes it. Each is a rule of docs/FORMAT.md, "Widths", which
 * says what the longest and the average are. Steps 2 to 6 come where there is a target and the arrangement isn't
 * `Disabled`, 7 and 8 where there is none or it is; 1 comes in both.
 *
 * A bound that isn't the step did nothing. Bounds count the paddings, and this is what they have to reach:
 *   - for 2 to 6: a lower bound is above the average, or at least the longest and the paddings (then the step is 1); an
 *     upper bound exceeds neither the average nor the longest, paddings added to both;
 *   - for 7 and 8: a lower bound is at least the longest and the paddings (1 again); an upper bound is below the
 *     longest, no paddings added. Without a target a percent width does nothing. */
enum {
    /* None: the column is hidden, or the sheet has no such column. */
    CAGWONI_STEP_NONE = 0,
    /* Its constraint, before any room is shared: `ContentWidth`, `Absolute`, or a lower bound that the longest and the
     * paddings don't exceed. Change the constraint; for `ContentWidth` the text. */
    CAGWONI_STEP_FIRST = 1,
    /* Its lower bound, which is above the average. Change the bound; or leave more room, by a greater target or by
     * narrower neighbours. */
    CAGWONI_STEP_LOWER = 2,
    /* Its upper bound, which exceeds neither the average nor the longest. Change the bound. */
    CAGWONI_STEP_UPPER = 3,
    /* Its longest, which is at most the average. Change the text; more room does nothing. */
    CAGWONI_STEP_LONGEST = 4,
    /* The longest part of its lines once they are split at the average, since that is shorter by 3 or more. Change the
     * text, a delimiter or the room. */
    CAGWONI_STEP_PART = 5,
    /* An even share of what the other columns left. Leave more room, by a greater target or by narrower neighbours. */
    CAGWONI_STEP_SHARE = 6,
    /* Its longest, with no target or `Disabled`. Change the text. */
    CAGWONI_STEP_UNTARGETED_LONGEST = 7,
    /* Its upper bound, which is below the longest, with no target or `Disabled`. Change the bound. */
    CAGWONI_STEP_UNTARGETED_UPPER = 8
};

/* Why each column is as wide as it is, and how the page fits the target. Number 0:
 *   columns         the count of columns
 *   step            for each column the step that set its content width, 1 to 8 as above; 0 for a hidden column and for
 *                   entries past the columns
 *   widened         whether the column was then given more: where no column is left for an even share,
 *                   `DynamicFullWidth` shares what remains of the target among the visible ones. False where its share
 *                   is 0, for a hidden column and for entries past the columns
 *   has_difference  whether the sheet has a target, whatever the arrangement
 *   difference      with a target: that less the longest line of the page, borders and rules too, in characters without
 *                   0A. A page without lines has length 0. Above 0: as many columns are spare. 0: the line ends on the
 *                   target. Below 0: it overruns the target by as many. Without a target 0
 * Refused, every one of these is 0 or false. */
cagwoni_reasoned cagwoni_reasons(const uint8_t *sheet, size_t sheet_len);

/* Prints the page. Number 0: the first `written` bytes of the buffer are the page, and those after them are
 * untouched. Number 20, place the page's byte count, if `page_len` is below that; the buffer keeps every byte. */
cagwoni_printed cagwoni_print_page(const uint8_t *sheet, size_t sheet_len, uint8_t *page, size_t page_len);

/* Prints line `line` of the page, its 0A included. Number 0: the first `written` bytes of the buffer are that line,
 * and those after them are untouched. Number 21, place the line count, if `line` isn't below that; else 20, place
 * the line's byte count, if `page_len` is below that. Refused, the buffer keeps every byte. */
cagwoni_printed cagwoni_print_line(const uint8_t *sheet, size_t sheet_len, size_t line, uint8_t *page, size_t page_len);

/* Prints lines of the page from line `line` on, as many whole ones as the buffer holds. Number 0: the first `written`
 * bytes of the buffer are the lines `line` to `next` less 1, one after another, and those after them are untouched;
 * `next` is above `line`, and it is the line count exactly if the page's last line was printed. Number 21, place the
 * line count, if `line` isn't below that; else 20, place the byte count of line `line`, if not even that line fits.
 * Refused, `next` is 0 too, and the buffer keeps every byte. */
cagwoni_printed_lines cagwoni_print_lines(const uint8_t *sheet, size_t sheet_len, size_t line, uint8_t *page,
                                          size_t page_len);

/* Writes the sheet of an editor's table. Reading what it wrote gives that table, and the table that is read from an
 * accepted sheet is written as the same bytes.
 *
 * `numbers` has the table's numbers in the sheet's order, each 0 to 65,535, whether its field can hold it or not:
 *   - edition, arrangement, target, delimiter;
 *   - the indicator's length; the style's length;
 *   - the column count, and nine for each column: left and right padding, delimiter, alignment, constraint, unit and
 *     value of the first width, unit and value of the second;
 *   - the header count, and its rows; the row count, and the rows. A row is its height limit, its cell count and its
 *     cells; a cell is its delimiter, its alignment, its line count and each line's length.
 * `text` has the bytes of the indicator, of the style and of each line, in that order, one after another. The trial
 * desk's sheet:
 *
 *     static const uint16_t numbers[] = {
 *         1, 1, 20, 0,                // edition, arrangement, target, delimiter
 *         0, 22,                      // lengths of indicator and style
 *         2,                          // columns
 *         1, 1, 0, 0, 0, 0, 0, 0, 0,
 *         1, 1, 0, 0, 0, 0, 0, 0, 0,
 *         0,                          // headers
 *         1,                          // rows
 *         0, 2,                       // height limit, cells
 *         0, 0, 1, 2,                 // delimiter, alignment, lines, length
 *         0, 0, 1, 15,
 *     };
 *     static const uint8_t text[] = "+-++|||+=++|||+-+++-++" "ab" "the quick brown";
 *     static uint8_t sheet[CAGWONI_LONGEST_SHEET];  // has room for any sheet
 *     size_t numbers_len = sizeof numbers / sizeof *numbers, text_len = sizeof text - 1;
 *     cagwoni_printed p = cagwoni_write_sheet(numbers, numbers_len, text, text_len, sheet, sizeof sheet);
 *
 * Number 0: the first `written` bytes of the buffer are the sheet, here 81, and those after them are untouched. Else
 * the buffer keeps every byte, and the number is the first of these:
 *   1      a number is missing, or bytes of a text. Both are taken from the left, and the first that is missing ends
 *          it (place: how many numbers were taken; the length of a text that is missing is one of them)
 *   9      numbers or bytes of text are left over (place: how many numbers were taken)
 *   2      the table needs over 32,768 bytes, whether its fields are in order or not (place 32,768). Each number takes
 *          one byte, a count or length over 255 too, but the target and the values of widths two; and there is the text
 *   3 to 8 a field is at fault, the first from the left: the reader's number, as above, with the place that the field
 *          would have in the sheet. A number that its field can't hold, such as 256, is an edition other than 1, an
 *          unknown code, beyond its limits, or no character. An unused width gets 8 at its unit, or at the first byte
 *          of its value that isn't 0, of which the low byte is the first
 *   22     the table is in order, but `sheet_len` is below the sheet's length (place: that length)
 *
 * These print alike and are kept apart: delimiter 0 and a space, alignment 0 and 1, no header and one without cells. */
cagwoni_printed cagwoni_write_sheet(const uint16_t *numbers, size_t numbers_len, const uint8_t *text, size_t text_len,
                                    uint8_t *sheet, size_t sheet_len);

#ifdef __cplusplus
}
#endif

#endif
