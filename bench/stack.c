/* How deep each call goes into the stack: stack SHEET ..
 * The stack below the caller is painted, the call made, and the deepest byte looked for that lost its paint. A call
 * that stays within MARGIN bytes, which aren't painted, counts as MARGIN. Without WRITER or REASONS the archive is one
 * from before that call. */
#define _GNU_SOURCE
#include <pthread.h>
#include <stdio.h>
#include <stdlib.h>
#include <sys/mman.h>

#include "apart.h"
#include "cagwoni.h"

enum { STACK = 1024 * 1024, MARGIN = 256, PAINT = 0xA5, LONGEST = 40000 };

struct sheet {
    uint8_t bytes[LONGEST];
    size_t length, lines, page_length;
    uint8_t *page;
    /* The sheet taken apart, if it is accepted, and written back. */
    uint16_t numbers[LONGEST];
    uint8_t text[LONGEST], again[LONGEST];
    struct slices slices;
};

static void check(struct sheet *s) { cagwoni_check(s->bytes, s->length); }
static void count(struct sheet *s) { cagwoni_count(s->bytes, s->length); }
static void widths(struct sheet *s) { cagwoni_widths(s->bytes, s->length); }
#ifdef REASONS
static void reasons(struct sheet *s) { cagwoni_reasons(s->bytes, s->length); }
#endif
static void page(struct sheet *s) { cagwoni_print_page(s->bytes, s->length, s->page, s->page_length); }
static void line(struct sheet *s) { cagwoni_print_line(s->bytes, s->length, s->lines / 2, s->page, s->page_length); }
static void lines(struct sheet *s) { cagwoni_print_lines(s->bytes, s->length, s->lines / 2, s->page, s->page_length); }
#ifdef WRITER
static void save(struct sheet *s) {
    const struct slices *t = &s->slices;
    cagwoni_write_sheet(t->numbers, t->numbers_len, t->text, t->text_len, s->again, LONGEST);
}
#endif

static struct {
    const char *name;
    void (*call)(struct sheet *);
    size_t deepest;
    const char *where;
} calls[] = {{"cagwoni_check", check, 0, ""},      {"cagwoni_count", count, 0, ""},
             {"cagwoni_widths", widths, 0, ""},    {"cagwoni_print_page", page, 0, ""},
             {"cagwoni_print_line", line, 0, ""},  {"cagwoni_print_lines", lines, 0, ""},
#ifdef REASONS
             {"cagwoni_reasons", reasons, 0, ""},
#endif
#ifdef WRITER
             {"cagwoni_write_sheet", save, 0, ""},
#endif
};

enum { CALLS = sizeof calls / sizeof calls[0] };

static uint8_t *stack;
static char **files;

/* Not inlined, so that its own frame is small and known to lie within the margin. */
__attribute__((noinline)) static void paint(uint8_t *end) {
    for (volatile uint8_t *at = stack; at < end; at++)
        *at = PAINT;
}

__attribute__((noinline)) static size_t depth(void (*call)(struct sheet *), struct sheet *sheet) {
    uint8_t *here = __builtin_frame_address(0);
    paint(here - MARGIN);
    call(sheet);
    volatile uint8_t *deepest = stack;
    while (deepest < here - MARGIN && *deepest == PAINT)
        deepest++;
    return (size_t)(here - deepest);
}

static void load(struct sheet *sheet, const char *file) {
    FILE *in = fopen(file, "rb");
    if (!in) {
        perror(file);
        exit(2);
    }
    sheet->length = fread(sheet->bytes, 1, LONGEST, in);
    fclose(in);
    cagwoni_counted counted = cagwoni_count(sheet->bytes, sheet->length);
    sheet->lines = (size_t)counted.lines;
    sheet->page_length = (size_t)counted.bytes;
    free(sheet->page);
    sheet->page = malloc(sheet->page_length + 1);
    sheet->slices = (struct slices){.numbers = sheet->numbers, .text = sheet->text};
    if (counted.number == 0)
        take_apart(sheet->bytes, &sheet->slices);
}

static void *measure(void *unused) {
    static struct sheet sheet;
    for (char **file = files; *file; file++) {
        load(&sheet, *file);
        for (size_t at = 0; at < CALLS; at++) {
            size_t deep = depth(calls[at].call, &sheet);
            if (deep > calls[at].deepest) {
                calls[at].deepest = deep;
                calls[at].where = *file;
            }
        }
    }
    return unused;
}

int main(int count, char **words) {
    pthread_attr_t attributes;
    pthread_t thread;
    files = words + 1;
    stack = mmap(NULL, STACK, PROT_READ | PROT_WRITE, MAP_PRIVATE | MAP_ANONYMOUS, -1, 0);
    if (count < 2 || stack == MAP_FAILED || pthread_attr_init(&attributes) ||
        pthread_attr_setstack(&attributes, stack, STACK) || pthread_create(&thread, &attributes, measure, NULL) ||
        pthread_join(thread, NULL))
        return fprintf(stderr, "usage: stack SHEET ..\n"), 2;
    printf("stack in bytes, most over %d sheets, counted from the caller's frame\n", count - 1);
    for (size_t at = 0; at < CALLS; at++)
        printf("%-20s %7zu  %s\n", calls[at].name, calls[at].deepest, calls[at].where);
    return 0;
}
