/* Preloaded: fails one allocation, the one whose number the variable SWEEP_REFUSE gives,
 * counted from 1 over all threads of the process; each allocation and each realloc is one. Where it
 * refused it makes the file that SWEEP_REPORT names. */
#include <errno.h>
#include <fcntl.h>
#include <stdlib.h>
#include <unistd.h>

void *__libc_malloc(size_t size);
void *__libc_calloc(size_t count, size_t size);
void *__libc_realloc(void *block, size_t size);
void *__libc_memalign(size_t alignment, size_t size);

static unsigned long refused, asked;
static const char *report;

__attribute__((constructor)) static void begin(void)
{
    const char *number = getenv("SWEEP_REFUSE");
    report = getenv("SWEEP_REPORT");
    if (number != NULL && report != NULL)
        refused = strtoul(number, NULL, 10);
}

static int is_refused(void)
{
    if (refused == 0 || __atomic_add_fetch(&asked, 1, __ATOMIC_SEQ_CST) != refused)
        return 0;
    int file = open(report, O_WRONLY | O_CREAT | O_CLOEXEC, 0600);
    if (file < 0)
        _exit(125);
    close(file);
    errno = ENOMEM;
    return 1;
}

void *malloc(size_t size)
{
    return is_refused() ? NULL : __libc_malloc(size);
}

void *calloc(size_t count, size_t size)
{
    return is_refused() ? NULL : __libc_calloc(count, size);
}

void *realloc(void *block, size_t size)
{
    return is_refused() ? NULL : __libc_realloc(block, size);
}

void *memalign(size_t alignment, size_t size)
{
    return is_refused() ? NULL : __libc_memalign(alignment, size);
}

void *aligned_alloc(size_t alignment, size_t size)
{
    return memalign(alignment, size);
}

int posix_memalign(void **block, size_t alignment, size_t size)
{
    void *made = memalign(alignment, size);
    if (made == NULL)
        return ENOMEM;
    *block = made;
    return 0;
}
