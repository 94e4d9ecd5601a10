/* Every call of include/cagwoni.h: test [--plain] FOLDER [RECORDS ..]
 * FOLDER has NAME.sheet files with their pages, RECORDS are files of stored answers. With --plain no memory is fenced
 * and no small stack is used, for a run under a tool that watches memory itself. */
#define _GNU_SOURCE
#include <limits.h>
#include <pthread.h>
#include <stdio.h>
#include <string.h>
#include <sys/mman.h>
#include <unistd.h>

#include "cases.h"
#include "check.h"

enum { SMALL_STACK = 64 * 1024 };

struct part {
    char **paths;
    size_t random;
    enum fence fence;
};

static void all_cases(const struct part *part) {
    header_cases(part->fence);
    desk_cases(part->fence);
    degree_cases(part->fence);
    reason_cases(part->fence);
    write_cases(part->fence);
    folder_cases(part->paths[0], part->fence);
    for (char **path = part->paths + 1; *path; path++)
        record_cases(*path, part->fence);
    random_cases(part->fence, part->random);
}

static void *in_thread(void *part) {
    catch_faults();
    all_cases(part);
    return NULL;
}

/* The test's own frames and the thread's bookkeeping stand on that stack too, so a call has even less. */
static void on_small_stack(struct part *part) {
    size_t page = (size_t)sysconf(_SC_PAGESIZE);
    char *memory = mmap(NULL, SMALL_STACK + page, PROT_READ | PROT_WRITE, MAP_PRIVATE | MAP_ANONYMOUS, -1, 0);
    pthread_attr_t attributes;
    pthread_t thread;
    if (memory == MAP_FAILED || mprotect(memory, page, PROT_NONE) || pthread_attr_init(&attributes) ||
        pthread_attr_setstack(&attributes, memory + page, SMALL_STACK) ||
        pthread_create(&thread, &attributes, in_thread, part) || pthread_join(thread, NULL))
        give_up("a thread with a stack of 64 KiB");
    munmap(memory, SMALL_STACK + page);
}

int main(int count, char **words) {
    int plain = count > 1 && strcmp(words[1], "--plain") == 0;
    struct part part = {.paths = words + 1 + plain, .random = plain ? 300 : 20000};
    if (!part.paths[0]) {
        fprintf(stderr, "usage: test [--plain] FOLDER [RECORDS ..]\n");
        return 2;
    }
    part.fence = plain ? FENCE_PLAIN : FENCE_ENDS;
    if (!plain)
        catch_faults();
    all_cases(&part);
    if (!plain) {
        part.fence = FENCE_STARTS;
        part.random = 2000;
        all_cases(&part);
        part.fence = FENCE_ENDS;
        on_small_stack(&part);
    }
    printf("%zu checks\n", checks_done());
    return 0;
}
