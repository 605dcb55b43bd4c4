/* Each function of krbrelay.h, as the matrix calls it on `given`, `told` and `handles`. */
#ifndef CALLS_H
#define CALLS_H
#include "given.h"

/* What a call does, by which its cases are made. */
enum does {
    MAKES,          /* a handle */
    SEALS,          /* given.body */
    OPENS,          /* frame */
    KEEPS_NOTHING,  /* of what it asks the allocator for: it ends its own handle */
    ASKS_NOTHING    /* of the allocator, whatever it is given */
};

/* What the sealing and opening calls take and give. */
enum of { OF_DATA, OF_RECORDS };

struct call {
    const char *name;           /* without krbrelay_ */
    uint32_t (*made)(void);     /* calls it, and answers what it answers */
    enum does does;
    enum uses uses;
    enum of of;
    int draws;                  /* it asks the clock, and draws its confounder */
    int is_in_place;
    long cases;                 /* how many were tried */
};

extern struct call calls[];
extern const int call_count;

/* The call of this name, which there is. */
struct call *call_of(const char *name);

/* Compares the table with the functions that this header declares, and with what was tried. Answers how
 * many faults there are, and tells each. */
int calls_compared(const char *header);
#endif
