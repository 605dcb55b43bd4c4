#include "kinds.h"

#include <stdio.h>
#include <stdlib.h>
#include <string.h>

#define KIND_WORD(name, word, text) word,
#define KIND_TEXT(name, word, text) text,
static const char *const words_of[] = { KINDS(KIND_WORD) }, *const texts_of[] = { KINDS(KIND_TEXT) };

#define LIMIT_WORD(name, word) word,
static const char *const limits_of[] = { LIMITS(LIMIT_WORD) };

static unsigned char chosen[KIND_COUNT];
static unsigned limits[LIMIT_COUNT]; /* 0: there is none */
static int is_calm_now;
static uint64_t counts[KIND_COUNT];

int has(enum kind kind)
{
    return chosen[kind];
}

int is_calm(void)
{
    return is_calm_now;
}

unsigned limited(enum limit limit, unsigned number)
{
    return limits[limit] > 0 && limits[limit] < number ? limits[limit] : number;
}

static int find_calm(void)
{
    unsigned i, others = 0;
    for (i = 0; i < KIND_COUNT; i++)
        others += has(i) && i != KIND_CALM && i != KIND_SILENT && i != KIND_SKEWED && i != KIND_BURSTS && i != KIND_TICKETS;
    others += has(KIND_SKEWED) && has(KIND_BURSTS);
    return others == 0 && (has(KIND_CALM) || has(KIND_SILENT) || has(KIND_SKEWED));
}

void happened(enum kind kind, uint64_t times)
{
    counts[kind] += times;
}

/* Which of these words it is; so many as there are if it is none. */
static unsigned find(const char *const *words, unsigned count, const char *word, size_t len)
{
    unsigned i = 0;
    while (i < count && (strlen(words[i]) != len || strncmp(words[i], word, len) != 0))
        i++;
    return i;
}

int kinds_choose(const char *words)
{
    while (*words != 0) {
        size_t len = strcspn(words, "+"), name = strcspn(words, "=+");
        unsigned kind = find(words_of, KIND_COUNT, words, len), limit = find(limits_of, LIMIT_COUNT, words, name);
        if (kind < KIND_COUNT)
            chosen[kind] = 1;
        else if (limit < LIMIT_COUNT && name < len)
            limits[limit] = (unsigned)strtoul(words + name + 1, NULL, 10);
        if (kind == KIND_COUNT && (limit == LIMIT_COUNT || limits[limit] == 0))
            return 0;
        words += len + (words[len] == '+');
    }
    is_calm_now = find_calm();
    return 1;
}

void kinds_print(void)
{
    unsigned i;
    for (i = 0; i < KIND_COUNT; i++)
        printf("%llu %s\n", (unsigned long long)counts[i], texts_of[i]);
}
