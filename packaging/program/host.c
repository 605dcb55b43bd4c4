/* What the proved code of the program calls of its host, beside the C library and the heap (heap.c): the words
 * of its command line, and errno. */
#include <errno.h>
#include <stddef.h>
#include <stdint.h>
#include <string.h>
#include <sys/types.h>

size_t rattle_arg_count(void);
ssize_t rattle_arg(size_t place, uint8_t *room, size_t size);
int rattle_errno(void);
void rattle_set_errno(int error);

static size_t count;
static char **words;

/* The loader gives these to each constructor, as it gives them to main. */
__attribute__((constructor)) static void keep(int given, char **list)
{
    count = (size_t)given;
    words = list;
}

/* How many words there are, with the name of the program. */
size_t rattle_arg_count(void)
{
    return count;
}

/* Copies a word. Returns its length; -1 if there is no such word; or -2 if it doesn't fit, and then as much of
 * it as fits was copied. */
ssize_t rattle_arg(size_t place, uint8_t *room, size_t size)
{
    if (place >= count)
        return -1;
    size_t len = strlen(words[place]);
    memcpy(room, words[place], len < size ? len : size);
    return len <= size ? (ssize_t)len : -2;
}

int rattle_errno(void)
{
    return errno;
}

void rattle_set_errno(int error)
{
    errno = error;
}
