/* One case of the matrix: a call on what is given, and then again with each of its allocations refused. */
#ifndef TRIED_H
#define TRIED_H
#include "calls.h"

/* The call has to answer this, to change what the answer says and nothing else, to ask the allocator for
 * no more than its bound, and to leave no secret in what it gives back; and with any allocation refused to
 * answer KRBRELAY_MEMORY, change nothing, and then do what it did. */
void try_call(struct call *call, const char *why, uint32_t answer);

/* Counts a fact, and tells one that isn't so, with the case. */
void is_so(int fact, const char *what);

/* Writes a line of each case to this file: call, why, mode, encryption type, size, answer, and of its
 * allocations how many, the bytes, and the largest. */
void tried_to(void *file);

struct tried { long cases, runs, wrong; };
struct tried tried_so_far(void);

/* How many allocations the call of the last case asked for. */
long tried_asked(void);
#endif
