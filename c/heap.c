/* What the proved code calls for its heap: whether there is a block, and where. A block of no bytes
 * still has an address of its own. */
#include <stdlib.h>

struct block {
    size_t is_there;
    void *at;
};

struct block rattle_alloc(size_t size, size_t one);
struct block rattle_realloc(void *at, size_t before, size_t size, size_t one);
void rattle_dealloc(void *at);

static char nowhere;

static struct block block_at(void *at)
{
    struct block found = { at != NULL, at != NULL ? at : &nowhere };
    return found;
}

struct block rattle_alloc(size_t size, size_t one)
{
    return block_at(malloc(size > 0 ? size : one));
}

struct block rattle_realloc(void *at, size_t before, size_t size, size_t one)
{
    (void)before;
    return block_at(realloc(at, size > 0 ? size : one));
}

void rattle_dealloc(void *at)
{
    free(at);
}
