/* Put before the C library (LD_PRELOAD), this makes standard input and output of a program behave as a device seldom
 * does. CALLS says how:
 *   interrupted   each second read and write fails with EINTR
 *   short         a read or write moves one byte
 *   never         no read is ever ready
 *   stuck         no write is ever ready
 *   stops         every write takes nothing and fails with nothing
 * Standard error is left alone. */
#define _GNU_SOURCE
#include <errno.h>
#include <stdlib.h>
#include <string.h>
#include <sys/syscall.h>
#include <time.h>
#include <unistd.h>

static int is(const char *name) {
    static const char *how;
    if (!how)
        how = getenv("CALLS") ? getenv("CALLS") : "";
    return strcmp(how, name) == 0;
}

static ssize_t fails(int number) {
    errno = number;
    return -1;
}

ssize_t read(int fd, void *bytes, size_t count) {
    static unsigned calls;
    if (fd == 0 && is("interrupted") && calls++ % 2 == 0)
        return fails(EINTR);
    if (fd == 0 && is("never"))
        return fails(EAGAIN);
    if (fd == 0 && is("short") && count > 1)
        count = 1;
    return syscall(SYS_read, fd, bytes, count);
}

ssize_t write(int fd, const void *bytes, size_t count) {
    static unsigned calls;
    if (fd == 1 && is("interrupted") && calls++ % 2 == 0)
        return fails(EINTR);
    if (fd == 1 && is("stuck"))
        return fails(EAGAIN);
    if (fd == 1 && is("stops"))
        return 0;
    if (fd == 1 && is("short") && count > 1)
        count = 1;
    return syscall(SYS_write, fd, bytes, count);
}

/* So that waiting for what never comes takes no time. */
int nanosleep(const struct timespec *asked, struct timespec *left) {
    (void)asked, (void)left;
    return 0;
}
