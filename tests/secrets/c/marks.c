/* What is read from the standard input is secret, and what is written is public from then on: the
   marks that memcheck follows (valgrind/memcheck.h). LD_PRELOAD puts it before the C library. */
#define _GNU_SOURCE
#include <dlfcn.h>
#include <unistd.h>
#include <valgrind/memcheck.h>

typedef ssize_t reader(int, void *, size_t);
typedef ssize_t writer(int, const void *, size_t);

static ssize_t read_secret(const char *name, int from, void *bytes, size_t size)
{
    reader *next = (reader *)dlsym(RTLD_NEXT, name);
    ssize_t count = next(from, bytes, size);
    if (from == 0 && count > 0)
        VALGRIND_MAKE_MEM_UNDEFINED(bytes, count);
    return count;
}

static ssize_t write_public(const char *name, int to, const void *bytes, size_t size)
{
    writer *next = (writer *)dlsym(RTLD_NEXT, name);
    VALGRIND_MAKE_MEM_DEFINED(bytes, size);
    return next(to, bytes, size);
}

ssize_t read(int from, void *bytes, size_t size)
{
    return read_secret("read", from, bytes, size);
}

ssize_t __read(int from, void *bytes, size_t size)
{
    return read_secret("__read", from, bytes, size);
}

ssize_t write(int to, const void *bytes, size_t size)
{
    return write_public("write", to, bytes, size);
}

ssize_t __write(int to, const void *bytes, size_t size)
{
    return write_public("__write", to, bytes, size);
}
