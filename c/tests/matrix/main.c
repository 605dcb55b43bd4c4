/* Each call of krbrelay.h, by size, mode and encryption type, where it does its work and where it refuses:
 * KRBRELAY_MEMORY is answered if and only if an allocation was refused, each in its turn; nothing is changed
 * then; what is asked for is bounded by the frame; and no block that is given back, nor one that realloc
 * leaves, holds a key, a derived one, a round key, user data of a KRB-PRIV or a confounder.
 *
 *   matrix HEADER INSIDE STRINGS ROUND_KEYS [LINES [SIZE..]]
 *
 * HEADER is krbrelay.h, whose functions have to be those of the table; INSIDE what inside.py wrote, or - for
 * none; the next two have secrets. LINES gets a line for each case (tried.h), or is - for none. The sizes are
 * all those below, or those that are named. */
#include "blocks.h"
#include "cases.h"

#include <stdio.h>
#include <stdlib.h>
#include <string.h>

static const size_t sizes[] = { 0, 1, 127, 128, 255, 256 };
/* Of these, which take time, one encryption type with each mode. */
static const size_t longest[] = { 65535, 65536, 65537, 999999, 1000000, 1000001, 1000002 };

static void try_size(uint32_t mode, int32_t etype, size_t size)
{
    try_quiet(mode, etype, size);
    try_sealing(mode, etype, size);
    if (size <= KRBRELAY_USER_DATA_LIMIT)
        try_opening(mode, etype, size);
}

static void try_sizes(uint32_t mode, int32_t etype)
{
    for (size_t i = 0; i < sizeof sizes / sizeof *sizes; i++)
        try_size(mode, etype, sizes[i]);
    for (size_t i = 0; (etype == 18) == (mode == KRBRELAY_PRIV) && i < sizeof longest / sizeof *longest; i++)
        try_size(mode, etype, longest[i]);
}

static void try_all(uint32_t mode, int32_t etype, char **own_sizes)
{
    try_making(mode, etype);
    try_integers(mode, etype);
    try_least(mode, etype);
    if (*own_sizes == NULL)
        try_sizes(mode, etype);
    for (; *own_sizes != NULL; own_sizes++)
        try_size(mode, etype, strtoul(*own_sizes, NULL, 10));
}

static int is_none(const char *word) { return strcmp(word, "-") == 0; }

/* Reads the secrets, and finds each where it is left. */
static int has_eyes(char **files)
{
    int secrets = secrets_read(2, files);
    long found = secrets == 0 ? 0 : secrets_control();
    if (secrets == 0 || found < 0)
        printf("matrix: %s\n", secrets == 0 ? "a file of secrets has none" : "a secret that was left isn't found");
    else
        printf("matrix: %d secrets, %ld times left and found\n", secrets, found);
    return secrets > 0 && found > 0;
}

static void try_frames(const char *inside)
{
    long frames = is_none(inside) ? 0 : try_inside(inside);
    is_so(is_none(inside) || frames > 0, "there are frames that are malformed within");
    printf("matrix: %ld frames of an independent sealer\n", frames);
}

int main(int argc, char **argv)
{
    FILE *lines = argc > 5 && !is_none(argv[5]) ? fopen(argv[5], "w") : NULL;
    long wrong;
    if (argc < 5 || !has_eyes(argv + 3))
        return 1;
    tried_to(lines);
    out_begun();
    for (uint32_t mode = KRBRELAY_SAFE; mode <= KRBRELAY_PRIV; mode++)
        for (int32_t etype = 17; etype <= 18; etype++)
            try_all(mode, etype, argc > 6 ? argv + 6 : argv + argc);
    try_frames(argv[2]);
    wrong = tried_so_far().wrong + calls_compared(argv[1]);
    if (lines != NULL)
        fclose(lines);
    printf("matrix: %ld cases, %ld runs, %ld refused allocations, %ld blocks searched, %ld wrong\n",
           tried_so_far().cases, tried_so_far().runs, blocks_seen().refused, blocks_seen().searched, wrong);
    return wrong != 0;
}
