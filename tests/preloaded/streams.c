/* Preloaded: each read of standard input gives at most SWEEP_SIZE bytes, or each write to standard
 * output takes at most so many; SWEEP_STREAM is 0 or 1. From the call on whose number SWEEP_REFUSE
 * gives, counted from 1, each fails, or a write takes nothing where TAKE_NOTHING is set. That call
 * makes the file that SWEEP_REPORT names. */
#define _GNU_SOURCE
#include <errno.h>
#include <fcntl.h>
#include <stdlib.h>
#include <sys/syscall.h>
#include <unistd.h>

static unsigned long refused, asked, most;
static int stream = -1, takes_nothing;
static const char *report;

__attribute__((constructor)) static void begin(void)
{
    const char *number = getenv("SWEEP_REFUSE"), *which = getenv("SWEEP_STREAM");
    const char *size = getenv("SWEEP_SIZE");

    report = getenv("SWEEP_REPORT");
    if (number == NULL || which == NULL || size == NULL || report == NULL)
        _exit(125);
    refused = strtoul(number, NULL, 10);
    most = strtoul(size, NULL, 10);
    stream = which[0] == '1';
    takes_nothing = getenv("TAKE_NOTHING") != NULL;
}

static int is_refused(void)
{
    int file;

    if (__atomic_add_fetch(&asked, 1, __ATOMIC_SEQ_CST) < refused)
        return 0;
    file = (int)syscall(SYS_openat, AT_FDCWD, report, O_WRONLY | O_CREAT | O_CLOEXEC, 0600);
    if (file < 0 || close(file) != 0)
        _exit(125);
    errno = EIO;
    return 1;
}

static size_t within(size_t size)
{
    return size < most ? size : most;
}

ssize_t read(int file, void *buffer, size_t size)
{
    if (file != 0 || stream != 0)
        return syscall(SYS_read, file, buffer, size);
    return is_refused() ? -1 : syscall(SYS_read, file, buffer, within(size));
}

ssize_t write(int file, const void *buffer, size_t size)
{
    if (file != 1 || stream != 1)
        return syscall(SYS_write, file, buffer, size);
    if (is_refused())
        return takes_nothing ? 0 : -1;
    return syscall(SYS_write, file, buffer, within(size));
}
