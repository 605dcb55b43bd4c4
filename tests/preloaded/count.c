/* Preloaded: counts what a program asks of the allocator, and its threads. At the end it writes to the file that
 * COUNT_TO names how often, how many bytes, and the largest block, and how many threads it made. */
#define _GNU_SOURCE
#include <dlfcn.h>
#include <pthread.h>
#include <stdatomic.h>
#include <stdio.h>
#include <stdlib.h>
#include <sys/syscall.h>
#include <unistd.h>

void *__libc_malloc(size_t size);
void *__libc_realloc(void *block, size_t size);

static atomic_size_t asked, bytes, largest, threads;

static void note(size_t size)
{
    size_t most = largest;
    asked++;
    bytes += size;
    while (size > most && !atomic_compare_exchange_weak(&largest, &most, size)) { }
}

void *malloc(size_t size)
{
    note(size);
    return __libc_malloc(size);
}

void *realloc(void *block, size_t size)
{
    note(size);
    return __libc_realloc(block, size);
}

int pthread_create(pthread_t *thread, const pthread_attr_t *of, void *(*runs)(void *), void *with)
{
    int (*make)(pthread_t *, const pthread_attr_t *, void *(*)(void *), void *);
    *(void **)&make = dlsym(RTLD_NEXT, "pthread_create");
    threads++;
    return make(thread, of, runs, with);
}

__attribute__((destructor)) static void tell(void)
{
    size_t told[] = { asked, bytes, largest, threads };
    const char *path = getenv("COUNT_TO");
    FILE *file = path != NULL ? fopen(path, "w") : NULL;
    if (file == NULL)
        return;
    fprintf(file, "%zu %zu %zu %zu\n", told[0], told[1], told[2], told[3]);
    fclose(file);
}

/* A program may end by this, and then no destructor is called. */
void _exit(int status)
{
    tell();
    syscall(SYS_exit_group, status);
    __builtin_unreachable();
}
