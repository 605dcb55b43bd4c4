/* Calls leave copies of keys on the stack below their caller. This overwrites them. */
#include "../krbrelay.h"

/* The array has to lie on the stack itself: address sanitizers and safe stacks move it elsewhere. */
#if defined(__clang__)
#define ON_THE_STACK __attribute__((noinline, no_sanitize("address", "memory", "safe-stack")))
#else
#define ON_THE_STACK __attribute__((noinline, no_sanitize("address")))
#endif

/* It calls nothing: the loader would save registers below the array, which may hold keys, when it
 * finds a function at its first call. No store to what is volatile is left out. */
ON_THE_STACK void krbrelay_clear_stack(void)
{
    volatile uint64_t below[KRBRELAY_STACK_SIZE / sizeof(uint64_t)];
    size_t i;
    for (i = 0; i < sizeof below / sizeof below[0]; i++)
        below[i] = 0;
}
