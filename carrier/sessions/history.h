/* The history of a session: one digest of its frames that took effect, in their order
 * (krbrelay_history_add). Both ends keep it: by it a sender sees whether it is its frames that took
 * effect, and not those of another copy of its outbox. */
#ifndef HISTORY_H
#define HISTORY_H

#include <krbrelay.h>

/* A history, if it is known. */
struct history { uint8_t bytes[KRBRELAY_HISTORY_SIZE]; int is_known; };

/* Adds a frame to a history that is known. 0, or -1 with a report. */
int history_add(struct history *history, const uint8_t *frame, size_t len);

/* A history as digits, "" for one that isn't known; and back, of which anything else isn't known. */
enum { HISTORY_TEXT = 2 * KRBRELAY_HISTORY_SIZE + 1 };
void history_write(const struct history *history, char text[HISTORY_TEXT]);
void history_read(struct history *history, const char *text);

#endif
