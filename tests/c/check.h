/* Checks that are counted; the first that fails ends the run with what it was about. */
#ifndef CHECK_H
#define CHECK_H

#include <stddef.h>

/* What the checks are about from here on: a sheet, and a call with one number of its own. */
void about_sheet(const char *name, size_t number);
void about_call(const char *call, size_t number);

void check_that(int holds, const char *words, const char *file, int line);

#define CHECK(holds) check_that((holds), #holds, __FILE__, __LINE__)

/* Ends the run: the test itself can't go on. */
_Noreturn void give_up(const char *words);

size_t checks_done(void);

/* A byte touched outside ends the run with the same words. Each thread needs its own call: the handler may not use a
 * stack that has run out. */
void catch_faults(void);

#endif
