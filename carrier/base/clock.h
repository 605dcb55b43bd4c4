/* Clocks. */
#ifndef CLOCK_H
#define CLOCK_H

#include <krbrelay.h>

/* The present moment, by which messages are sealed and opened. */
struct krbrelay_moment read_clock(void);

/* A clock that only rises, in nanoseconds. */
uint64_t nanoseconds(void);
uint64_t milliseconds(void);

void pause_milliseconds(unsigned milliseconds);

#endif
