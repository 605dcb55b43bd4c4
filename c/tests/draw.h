/* Numbers for random sequences: the same for the same seed. */
#ifndef DRAW_H
#define DRAW_H
#include <stdint.h>

static uint64_t state; /* not 0 */

/* xorshift64*: any number below n. */
static uint64_t below(uint64_t n)
{
    state ^= state >> 12;
    state ^= state << 25;
    state ^= state >> 27;
    return state * UINT64_C(2685821657736338717) % n;
}
#endif
