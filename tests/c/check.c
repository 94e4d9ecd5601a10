#define _GNU_SOURCE
#include "check.h"

#include <signal.h>
#include <stdio.h>
#include <stdlib.h>
#include <unistd.h>

static size_t done;
static const char *sheet_name = "-", *call_name = "-";
static size_t sheet_number, call_number;

void about_sheet(const char *name, size_t number) {
    sheet_name = name;
    sheet_number = number;
    about_call("-", 0);
}

void about_call(const char *call, size_t number) {
    call_name = call;
    call_number = number;
}

static void say_where(void) {
    fprintf(stderr, "sheet: %s %zu, call: %s %zu, after %zu checks\n", sheet_name, sheet_number, call_name, call_number,
            done);
}

void check_that(int holds, const char *words, const char *file, int line) {
    done++;
    if (holds)
        return;
    fprintf(stderr, "failed: %s (%s:%d)\n", words, file, line);
    say_where();
    exit(1);
}

_Noreturn void give_up(const char *words) {
    perror(words);
    exit(2);
}

size_t checks_done(void) { return done; }

/* The run is over, so that calls which a handler shouldn't make do no harm. */
static void fault(int number) {
    fprintf(stderr, "failed: %s, a byte outside the sheet, the buffer or the stack was touched\n",
            number == SIGSEGV ? "SIGSEGV" : "SIGBUS");
    say_where();
    _exit(1);
}

void catch_faults(void) {
    stack_t aside = {.ss_sp = malloc(65536), .ss_size = 65536};
    struct sigaction action = {.sa_handler = fault, .sa_flags = SA_ONSTACK};
    if (!aside.ss_sp || sigaltstack(&aside, NULL) || sigaction(SIGSEGV, &action, NULL) ||
        sigaction(SIGBUS, &action, NULL))
        give_up("catch_faults");
}
