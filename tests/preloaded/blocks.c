/* Preloaded: prints each block that is freed, or left by realloc, while it holds one of the byte
 * strings that the variable RESIDUE_STRINGS names, as NAME=HEX,NAME=HEX. For each it appends a line
 * 'SIZE NAME' to the file that RESIDUE_REPORT names, and 'end BLOCKS' at the end, with the number
 * of blocks that were looked at. realloc always moves here, so that no block that it could leave is
 * missed, and nothing depends on the allocator. */
#define _GNU_SOURCE
#include <dlfcn.h>
#include <fcntl.h>
#include <malloc.h>
#include <stdio.h>
#include <stdlib.h>
#include <string.h>
#include <sys/syscall.h>
#include <unistd.h>

enum { MOST = 64, LONGEST = 128 };

struct text { char name[64]; unsigned char bytes[LONGEST]; size_t size; };

static struct text texts[MOST];
static int count, report = -1;
static unsigned long looked_at;
static void (*real_free)(void *);

/* Reads one NAME=HEX, and returns what comes after it. */
static const char *read_text(const char *from)
{
    struct text *t = &texts[count++];
    size_t name = strcspn(from, "=");
    unsigned value;
    memcpy(t->name, from, name < sizeof t->name ? name : sizeof t->name - 1);
    for (from += name + 1; sscanf(from, "%2x", &value) == 1 && t->size < LONGEST; from += 2)
        t->bytes[t->size++] = (unsigned char)value;
    return from + (*from == ',');
}

__attribute__((constructor)) static void begin(void)
{
    const char *strings = getenv("RESIDUE_STRINGS"), *path = getenv("RESIDUE_REPORT");
    if (strings == NULL || path == NULL)
        return;
    while (*strings != 0 && count < MOST)
        strings = read_text(strings);
    report = open(path, O_WRONLY | O_APPEND | O_CREAT | O_CLOEXEC, 0600);
}

static void tell(const char *line, int length)
{
    if (write(report, line, (size_t)length) != length)
        _exit(125);
}

__attribute__((destructor)) static void end(void)
{
    char line[64];
    if (report >= 0)
        tell(line, snprintf(line, sizeof line, "end %lu\n", looked_at));
    report = -1;
}

/* A program may end by this, and then no destructor is called. */
void _exit(int status)
{
    end();
    syscall(SYS_exit_group, status);
    __builtin_unreachable();
}

static void look_at(const void *block)
{
    size_t size = malloc_usable_size((void *)block);
    char line[128];
    __atomic_fetch_add(&looked_at, 1, __ATOMIC_RELAXED);
    for (int i = 0; i < count; i++)
        if (memmem(block, size, texts[i].bytes, texts[i].size) != NULL)
            tell(line, snprintf(line, sizeof line, "%zu %s\n", size, texts[i].name));
}

void free(void *block)
{
    if (real_free == NULL)
        real_free = (void (*)(void *))dlsym(RTLD_NEXT, "free");
    if (block != NULL && report >= 0)
        look_at(block);
    real_free(block);
}

void *realloc(void *block, size_t size)
{
    void *moved = malloc(size);
    size_t old = block == NULL ? 0 : malloc_usable_size(block);
    if (moved == NULL)
        return NULL;
    if (old > 0)
        memcpy(moved, block, old < size ? old : size);
    free(block);
    return moved;
}
