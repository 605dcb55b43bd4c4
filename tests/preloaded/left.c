/* Leaves strings in blocks that it frees, and others in blocks that realloc leaves, for tests/freed_memory to find:
 * within a block, in a small one that has nothing else, at the begin and at the end of a large one, as text
 * and as the bytes of a key. */
#include <stdlib.h>
#include <string.h>

enum { SMALL = 200, PLACE = 50, LARGE = 2000000 };

static const char key[] = "\x9d\x00\x81\xff left key";
static char *volatile left;     /* so that a compiler leaves out nothing of what is written before free */

/* A block of a size, with some bytes at a place of it. */
static char *block_with(const void *bytes, size_t len, size_t size, size_t place)
{
    char *block = calloc(1, size);
    if (block == NULL)
        exit(1);
    memcpy(block + place, bytes, len);
    return block;
}

static void leave(const void *bytes, size_t len, size_t size, size_t place)
{
    left = block_with(bytes, len, size, place);
    free(left);
}

/* realloc moves it, and what it moves to is cleared. */
static void leave_by_realloc(const void *bytes, size_t len, size_t size, size_t place)
{
    left = block_with(bytes, len, size, place);
    left = realloc(left, size + 100 * SMALL);
    if (left == NULL)
        exit(1);
    memset(left, 0, size + 100 * SMALL);
    free(left);
}

int main(void)
{
    static const char in_small[] = "left in a small block", at_begin[] = "left at a large block's begin",
                      at_end[] = "left at a large block's end", moved[] = "left by a realloc",
                      of_large[] = "left of a large block by realloc", plain[] = "left in a freed block";
    leave(plain, strlen(plain), SMALL, PLACE);
    leave(in_small, strlen(in_small), strlen(in_small), 0);
    leave(at_begin, strlen(at_begin), LARGE, 0);
    leave(at_end, strlen(at_end), LARGE, LARGE - strlen(at_end));
    leave(key, sizeof key - 1, SMALL, PLACE);
    leave_by_realloc(moved, strlen(moved), SMALL, PLACE);
    leave_by_realloc(of_large, strlen(of_large), LARGE, LARGE - strlen(of_large));
    return 0;
}
