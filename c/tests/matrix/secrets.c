#include "secrets.h"
#include "blocks.h"

#include <stdio.h>
#include <stdlib.h>
#include <string.h>

enum { MOST = 300, LINE = 200, READ = 16, LARGE = 1000000 };

uint8_t key[32], confounder[CONFOUNDER], user_data[BIG];

static struct line { char name[LINE]; uint8_t bytes[READ]; size_t len; } lines[MOST];
static int line_count;

/* User data: every other 16 bytes are the same and are looked for; the others tell where they stand. */
static void make_data(void)
{
    for (size_t i = 0; i < BIG; i++)
        user_data[i] = i / 16 % 2 == 0 ? (uint8_t)(0x21 + i % 16)
                                       : (uint8_t)(i % 16 < 4 ? i / 32 >> 8 * (i % 16) : 0x80 + i % 16);
}

static void make_all(void)
{
    for (int i = 0; i < 32; i++)
        key[i] = (uint8_t)(0xa0 + i * 5);
    for (int i = 0; i < CONFOUNDER; i++)
        confounder[i] = (uint8_t)(0xc1 + 3 * i);
    make_data();
    blocks_look_for("key", key, 16, 1);
    blocks_look_for("second half of the key", key + 16, 16, 1);
    blocks_look_for("user data", user_data, 8, 0);
    blocks_look_for("user data from their middle on", user_data + 8, 8, 0);
    blocks_look_for("confounder", confounder, 8, 0);
    blocks_look_for("second half of the confounder", confounder + 8, 8, 0);
}

/* Reads 'name=hexadecimal'. User data and confounders of the files are those of other tests. */
static void read_line(const char *text)
{
    struct line *it = &lines[line_count];
    const char *hex = strchr(text, '=');
    unsigned byte;
    if (hex == NULL || strstr(text, "user data") != NULL || strncmp(text, "confounder", 10) == 0)
        return;
    if (line_count == MOST)
        abort();
    memcpy(it->name, text, (size_t)(hex - text));
    for (hex++; it->len < READ && sscanf(hex + 2 * it->len, "%2x", &byte) == 1; it->len++)
        it->bytes[it->len] = (uint8_t)byte;
    blocks_look_for(it->name, it->bytes, it->len, 1);
    line_count++;
}

int secrets_read(int count, char **files)
{
    make_all();
    for (int i = 0; i < count; i++) {
        char text[LINE];
        int before = line_count;
        FILE *file = fopen(files[i], "r");
        while (file != NULL && fgets(text, sizeof text, file) != NULL)
            read_line(text);
        if (file == NULL || line_count == before)
            return 0;
        fclose(file);
    }
    return line_count + 6;
}

/* Whether a secret at this place of a block is found, once by free, once as what realloc leaves. */
static int is_found(const uint8_t *bytes, size_t len, size_t size, size_t at)
{
    long before = blocks_seen().found;
    volatile uint8_t *block = __wrap_malloc(size);
    for (size_t i = 0; i < len; i++)
        block[at + i] = bytes[i];
    block = __wrap_realloc((void *)block, size + 1);
    if (blocks_seen().found == before)
        return 0;
    before = blocks_seen().found;
    __wrap_free((void *)block);
    return blocks_seen().found > before;
}

long secrets_control(void)
{
    struct { const uint8_t *bytes; size_t len; } own[] = {
        { key, 16 }, { key + 16, 16 }, { user_data, 8 }, { user_data + 8, 8 }, { confounder, 8 },
        { confounder + 8, 8 }
    };
    int of_own = sizeof own / sizeof *own;
    for (int i = 0; i < of_own + line_count; i++) {
        const uint8_t *bytes = i < of_own ? own[i].bytes : lines[i - of_own].bytes;
        size_t len = i < of_own ? own[i].len : lines[i - of_own].len;
        if (!is_found(bytes, len, len, 0) || !is_found(bytes, len, LARGE, LARGE - len))
            return -1;
    }
    return 4L * (of_own + line_count);
}
