#define _GNU_SOURCE
#include "count.h"

#include <errno.h>
#include <fcntl.h>
#include <stdio.h>
#include <stdlib.h>
#include <unistd.h>

const char *const call_names[CALLS] = {
    "krb5_mk_safe", "krb5_rd_safe", "krb5_mk_priv", "krb5_rd_priv"
};
static unsigned long counts[CALLS][OUTCOMES];

unsigned long counted(enum call call, enum outcome outcome)
{
    return __atomic_load_n(&counts[call][outcome], __ATOMIC_RELAXED);
}

static const char *name_of(enum call call, enum outcome outcome)
{
    if (outcome == SERVED)
        return call == MK_SAFE || call == MK_PRIV ? "made" : "read";
    return outcome == REFUSED ? "refused" : "passed";
}

/* One write at the end of the file, so that the lines of several processes don't mix. */
static void append(const char *file, const char *line, size_t len)
{
    int fd = open(file, O_WRONLY | O_APPEND | O_CREAT | O_CLOEXEC, 0600);
    if (fd < 0)
        return;
    if (write(fd, line, len) != (ssize_t)len)
        fprintf(stderr, "krbrelay: %s has a line too few\n", file);
    close(fd);
}

void count_call(enum call call, enum outcome outcome, const char *reason, size_t bytes,
                uint32_t number)
{
    const char *file = secure_getenv("KRBRELAY_LOG");
    char line[256];
    int len;
    __atomic_fetch_add(&counts[call][outcome], 1, __ATOMIC_RELAXED);
    if (file == NULL)
        return;
    len = snprintf(line, sizeof line, "%.60s %s %s %.60s %zu %u\n", program_invocation_short_name,
                   call_names[call], name_of(call, outcome), reason, bytes, (unsigned)number);
    if (len > 0 && (size_t)len < sizeof line)
        append(file, line, (size_t)len);
}
