#include "blocks.h"

#include <stdlib.h>
#include <string.h>

void *__real_malloc(size_t size);
void __real_free(void *block);

enum { MOST_SECRETS = 400, FILL = 0xe5 };

/* Stands before each block, and keeps its alignment. */
struct head { size_t size, unused; };

static struct secret { const char *name; const uint8_t *bytes; size_t len; int is_of_key; } secrets[MOST_SECRETS];
static int secret_count, data_are_secret = 1, refuses_all_after;
/* Whether a secret begins with these two bytes. */
static uint8_t begins[65536 / 8];
static long before_refusal = -1, left;
static struct asked asked;
static struct seen seen;

void blocks_count_anew(void) { asked = (struct asked){ 0, 0, 0 }; }
struct asked blocks_asked(void) { return asked; }
struct seen blocks_seen(void) { return seen; }
void blocks_data_are_secret(int are) { data_are_secret = are; }

void blocks_refuse(long before, int and_all_after)
{
    before_refusal = before;
    refuses_all_after = and_all_after;
}

long blocks_left(void)
{
    long count = left;
    left = 0;
    return count;
}

static unsigned first_two(const uint8_t *bytes) { return (unsigned)(bytes[0] << 8 | bytes[1]); }

void blocks_look_for(const char *name, const uint8_t *bytes, size_t len, int is_of_key)
{
    unsigned two = first_two(bytes);
    if (secret_count == MOST_SECRETS || len < 8)
        abort();
    secrets[secret_count++] = (struct secret){ name, bytes, len, is_of_key };
    begins[two >> 3] |= (uint8_t)(1 << (two & 7));
}

/* Looks for each secret at one place of a block. */
static void look_at(const uint8_t *block, size_t size, size_t at)
{
    for (int i = 0; i < secret_count; i++) {
        const struct secret *it = &secrets[i];
        if ((it->is_of_key || data_are_secret) && it->len <= size - at
            && memcmp(block + at, it->bytes, it->len) == 0) {
            seen.found++;
            seen.last_found = it->name;
            seen.at = at;
            seen.of = size;
        }
    }
}

static void search(const uint8_t *block, size_t size)
{
    seen.searched++;
    for (size_t at = 0; at + 8 <= size; at++) {
        unsigned two = first_two(block + at);
        if (begins[two >> 3] >> (two & 7) & 1)
            look_at(block, size, at);
    }
}

static int is_refused(void)
{
    if (before_refusal < 0 || before_refusal-- > 0)
        return 0;
    before_refusal = refuses_all_after ? 0 : -1;
    seen.refused++;
    return 1;
}

void *__wrap_malloc(size_t size)
{
    struct head *head;
    asked.times++;
    asked.bytes += size;
    asked.largest = size > asked.largest ? size : asked.largest;
    if (is_refused())
        return NULL;
    head = __real_malloc(sizeof *head + size);
    if (head == NULL)
        abort();
    head->size = size;
    left++;
    memset(head + 1, FILL, size);
    return head + 1;
}

void __wrap_free(void *block)
{
    struct head *head = block;
    if (head == NULL)
        return;
    head--;
    search(block, head->size);
    left--;
    __real_free(head);
}

/* Always moves the block, so that what it leaves is searched. */
void *__wrap_realloc(void *block, size_t size)
{
    void *moved = __wrap_malloc(size);
    if (moved != NULL && block != NULL) {
        size_t before = ((struct head *)block - 1)->size;
        memcpy(moved, block, before < size ? before : size);
        __wrap_free(block);
    }
    return moved;
}
