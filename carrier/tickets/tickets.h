/* The ticket under which a sender makes openings. A thread asks the KDC for it, and for the next one
 * when half of its time is over, so that nobody waits for a KDC that doesn't answer. */
#ifndef TICKETS_H
#define TICKETS_H

#include "opening.h"

struct tickets;

/* Begins to ask. NULL, with a line of the log, if it can't. */
struct tickets *tickets_open(const struct kerberos_options *options);

/* Whether there is a ticket now; whether one was got, or asked for in vain. */
int tickets_have(struct tickets *tickets);
int tickets_have_tried(struct tickets *tickets);

/* Makes an opening of a session. 0, or -1 with a report. */
int tickets_make_opening(struct tickets *tickets, struct kerberos *kerberos,
                         const struct opened *it, uint8_t *frame, size_t room, size_t *len);

void tickets_close(struct tickets *tickets);

#endif
