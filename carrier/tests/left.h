/* Blocks that are freed with a secret in them, in a program that is linked with -Wl,--wrap=free. */
#ifndef LEFT_H
#define LEFT_H
#include "check.h"

#include <malloc.h>
#include <stdlib.h>
#include <string.h>

/* What is looked for in each block that is freed, if anything, and in how many it was. The compiler takes free
 * for a function that changes neither. */
static const char *volatile sought;
static volatile int left;

void __real_free(void *block);
void __wrap_free(void *block);

void __wrap_free(void *block)
{
    const char *secret = sought;
    if (secret != NULL && block != NULL)
        left += memmem(block, malloc_usable_size(block), secret, strlen(secret)) != NULL;
    __real_free(block);
}

static void look_for(const char *secret)
{
    left = 0;
    sought = secret;
}

/* In how many blocks it was that were freed since. */
static int found_left(void)
{
    sought = NULL;
    return left;
}

/* Where a block is freed with the secret in it, that is seen. */
static void check_is_seen(const char *secret)
{
    volatile char *control = malloc(strlen(secret) + 1); /* else what is written to it is left out */
    size_t i;
    check(control != NULL, "there is a block");
    for (i = 0; i <= strlen(secret); i++)
        control[i] = secret[i];
    look_for(secret);
    free((void *)control);
    check(found_left() == 1, "a secret is found where it is left");
}
#endif
