/* Chance, time, and steps that may be left anywhere. */
#include "clock.h"
#include "ports.h"

#include <setjmp.h>
#include <sys/random.h>

enum { SHORT = 4, SHORT_AND_FAIR = 20, NANOSECONDS_OF_A_LOOK = 1000 };

int running;
uint64_t now = SECOND, chance;
static uint64_t spent; /* within this step */
static sigjmp_buf end_of_step;
static int is_within;

/* ---- Chance, by splitmix64 */

uint64_t chance_below(uint64_t *state, uint64_t limit)
{
    uint64_t it = *state += UINT64_C(0x9e3779b97f4a7c15);
    it = (it ^ (it >> 30)) * UINT64_C(0xbf58476d1ce4e5b9);
    it = (it ^ (it >> 27)) * UINT64_C(0x94d049bb133111eb);
    return (it ^ (it >> 31)) % limit;
}

unsigned drawn(unsigned below)
{
    return (unsigned)chance_below(&chance, below);
}

int is_drawn(unsigned thousandths)
{
    return thousandths > 0 && drawn(1000) < thousandths;
}

WRAPPED(int, rand, void)
{
    return (int)drawn(1u << 30);
}

WRAPPED(ssize_t, getrandom, void *to, size_t len, unsigned flags)
{
    uint8_t *bytes = to;
    size_t i;
    for (i = 0; i < len; i++)
        bytes[i] = (uint8_t)drawn(256);
    return (ssize_t)len;
}

uint64_t digest_of(const void *bytes, size_t len)
{
    const uint8_t *at = bytes;
    uint64_t digest = UINT64_C(14695981039346656037);
    for (; len > 0; len--)
        digest = (digest ^ *at++) * UINT64_C(1099511628211);
    return digest;
}

/* ---- Time: the port clock.h */

uint64_t moment(void)
{
    return now + spent;
}

void spend(uint64_t time)
{
    spent += time;
}

/* Each look takes a moment, so that who waits for a time meets it. */
uint64_t nanoseconds(void)
{
    spend(NANOSECONDS_OF_A_LOOK);
    return moment();
}

uint64_t milliseconds(void)
{
    return moment() / MILLISECOND;
}

/* A loop that waits for one millisecond waits for more here: its steps cost time of the machine that simulates. */
void pause_milliseconds(unsigned time)
{
    if (time == 1)
        time = faults.is_over ? SHORT_AND_FAIR : SHORT;
    spend(time * MILLISECOND);
}

struct krbrelay_moment read_clock(void)
{
    const int64_t begun = 1700000000;
    uint64_t at = moment();
    return (struct krbrelay_moment){ .seconds = (uint64_t)(begun + (int64_t)(at / SECOND) + faults.clock[running]),
                                     .microseconds = (uint32_t)(at / 1000 % 1000000) };
}

/* ---- Steps */

int party_run(int party, void (*step)(int), uint64_t *took)
{
    volatile int is_killed = 0;
    spent = 0;
    running = party;
    is_within = 1;
    if (sigsetjmp(end_of_step, 0) == 0)
        step(party);
    else
        is_killed = 1;
    is_within = 0;
    running = WORLD;
    *took = spent;
    spent = 0;
    if (is_killed)
        party_end(party);
    return is_killed;
}

void party_killed(void)
{
    if (is_within)
        siglongjmp(end_of_step, 1);
}

void party_end(int party)
{
    int before = running;
    running = WORLD;
    statements_close(party);
    memory_free(party);
    running = before;
}
