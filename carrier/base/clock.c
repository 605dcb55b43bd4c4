#include "clock.h"
#include "signals.h"

#include <time.h>

struct krbrelay_moment read_clock(void)
{
    struct timespec now;
    if (clock_gettime(CLOCK_REALTIME, &now) != 0)
        end_at_once("the clock doesn't answer");
    return (struct krbrelay_moment){ (uint64_t)now.tv_sec, (uint32_t)(now.tv_nsec / 1000), 0 };
}

uint64_t nanoseconds(void)
{
    struct timespec now;
    if (clock_gettime(CLOCK_MONOTONIC, &now) != 0)
        end_at_once("the clock doesn't answer");
    return (uint64_t)now.tv_sec * 1000000000 + (uint64_t)now.tv_nsec;
}

uint64_t milliseconds(void)
{
    return nanoseconds() / 1000000;
}

void pause_milliseconds(unsigned milliseconds)
{
    struct timespec time = { milliseconds / 1000, (long)(milliseconds % 1000) * 1000000 };
    (void)nanosleep(&time, NULL); /* a signal may end the pause earlier: who waits looks again */
}
