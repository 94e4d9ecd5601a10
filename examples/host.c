/* A host: host < SHEET > PAGE
 * Status 0: the page was written. 1: the sheet is refused, and standard error says `refused N at P`. 2: wrong usage.
 * 3: the sheet couldn't be read, or the page is cut because it couldn't be written. */
#include <inttypes.h>
#include <stdio.h>
#include <string.h>

#include "cagwoni.h"

enum { PRINTED = 0, REFUSED = 1, USAGE = 2, FAILED = 3 };

/* One byte more than a sheet may have, so that one that is too long is seen. */
static uint8_t sheet[CAGWONI_LONGEST_SHEET + 1];

/* A page can be larger than memory; it goes out by as many whole lines as fit here. */
static uint8_t part[6 * CAGWONI_LONGEST_LINE];

static int print(size_t sheet_len) {
    for (size_t line = 0;;) {
        cagwoni_printed_lines p = cagwoni_print_lines(sheet, sheet_len, line, part, sizeof part);
        if (p.number == CAGWONI_PAST_END)
            return fflush(stdout) == 0 ? PRINTED : FAILED;
        if (p.number != 0) {
            fprintf(stderr, "refused %" PRIu64 " at %" PRIu64 "\n", p.number, p.place);
            return REFUSED;
        }
        if (fwrite(part, 1, p.written, stdout) != p.written)
            return FAILED;
        line = p.next;
    }
}

int main(int count, char **words) {
    int help = count == 2 && strcmp(words[1], "--help") == 0;
    if (count != 1) {
        fputs("usage: host < SHEET > PAGE\n", help ? stdout : stderr);
        return help ? PRINTED : USAGE;
    }
    size_t sheet_len = fread(sheet, 1, sizeof sheet, stdin);
    if (ferror(stdin)) {
        perror("host: the sheet can't be read");
        return FAILED;
    }
    int status = print(sheet_len);
    if (status == FAILED)
        perror("host: the page is cut");
    return status;
}
