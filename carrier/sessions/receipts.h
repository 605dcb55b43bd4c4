/* Receipts: by which a sender learns that its texts took effect, whatever a carrier has confirmed or
 * lost.
 *
 * A receipt says "all below n took effect, the close too if it is below", and of which frames: it has the
 * history of those (krbrelay_history_add). It is a KRB-PRIV of these bytes under the session's key of the
 * way back, with the number n - 1 and the receiver's address. So any number of receivers may seal it, it
 * is sealed of what the store has alone, and a lost, repeated, reordered or old one does nothing: the
 * sender keeps the greatest n. A sender whose own frames have another history isn't the one whose frames
 * took effect: its outbox was restored from an older copy, or copied and used twice. It stops the session.
 * Where nothing took effect, n is the session's first number, and the history that of no frames.
 *
 * A receipt that asks for frame n has a byte more, KRBRELAY_ASKS_MISSING or _REFUSED. A sender of an older
 * version doesn't read such a receipt; those that ask for nothing are as they were for it.
 *
 * A receipt of a receiver of an older version, or of a session that began under one, has no history: it
 * covers numbers, whoever's frames took them.
 *
 * The key of the way back follows from the session's key. Of a session that began by a ticket MIT's library
 * derives it (opening_session). Of a line of the file of sessions it is the last word, or, where that is missing,
 * the first bytes of the checksums of KRB-SAFE messages under the session's key that nobody sends
 * (receipt_key). Neither is a key under which anything else is sealed. */
#ifndef RECEIPTS_H
#define RECEIPTS_H

#include "history.h"
#include "sessions.h"

enum { RECEIPT = KRBRELAY_FRAME_SIZE(KRBRELAY_HISTORY_SIZE + 1) }; /* the room for one */

/* What a receipt says: all below n took effect, and which frames these were; and what it asks for,
 * KRBRELAY_ASKS_*. */
struct receipt { uint64_t n; struct history history; uint32_t asks; };

/* Gives a session of the file whose line has no key of the way back the one that follows. 0, or -1 with a
 * report. */
int receipt_key(struct session *of);

/* Seals a receipt. 0, or -1 with a report. */
int receipt_seal(const struct session *of, const struct receipt *receipt, uint8_t frame[RECEIPT],
                 size_t *len);

/* Opens one, by an opener that is made when it is first needed: RECEIPT_READ and what it says, or RECEIPT_NONE if it is
 * none under the session's key. RECEIPT_FAULT: there was no memory, so that isn't known. */
enum receipt_answer { RECEIPT_NONE, RECEIPT_READ, RECEIPT_FAULT };
enum receipt_answer receipt_open(const struct session *of, struct krbrelay_opener *opener, const uint8_t *frame,
                 size_t len, struct receipt *receipt);

#endif
