/* The cases of the matrix, by what a call does. Each is of one mode and one encryption type. */
#ifndef CASES_H
#define CASES_H
#include "tried.h"

/* Up to this size each reason is tried; beyond it, what succeeds and the reasons that come last. */
enum { ALL_REASONS = 70000 };

/* A change of what is given, and what the call answers then. */
struct reason {
    const char *why;
    uint32_t answer;
    void (*change)(void);
};

void try_making(uint32_t mode, int32_t etype);
void try_sealing(uint32_t mode, int32_t etype, size_t size);
void try_opening(uint32_t mode, int32_t etype, size_t size);
void try_quiet(uint32_t mode, int32_t etype, size_t size);
void try_integers(uint32_t mode, int32_t etype);
void try_least(uint32_t mode, int32_t etype);

/* Authentic frames that are malformed within, or at the limits of frames and addresses, of the file that
 * inside.py wrote. Answers how many there were. */
long try_inside(const char *path);

/* Sets of changes that several use. */
void as_given(void);
void moment_of_a_million(void);
void reserved_of_moment(void);
void empty(void);
void wiped(void);
void room_0(void);
#endif
