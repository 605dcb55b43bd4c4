/* Seals texts into records, whose frames the outbox stores. All of this is done within a transaction of the
 * outbox: what doesn't answer ANSWER_DONE wants it to be given up, and its sessions to be reset. Records get their
 * numbers in turn, and those of a transaction are sealed together, since that is quicker.
 *
 * ANSWER_FAULT may pass. ANSWER_STOPPED won't: of the session `stopped` the texts from `stopped_from` on can't be sealed,
 * `reason` says why, and those before them still can. */
#ifndef SEAL_H
#define SEAL_H

#include "outbox.h"

enum { BATCH_BYTES = 60000 };      /* of a batch at most, so that its message passes by any carrier */

/* One session of a sender, from its first text or frame on. */
struct sending {
    struct session of;          /* the first member: it is found by its name */
    struct begun *begun;        /* how it begins by a ticket; NULL: it has a line */
    struct stream *stream;      /* whose session it is then, */
    struct wrapped *wrapped;    /* its key as the outbox is to have it; NULL: it has it, */
    int is_stored;              /* and its row: its opening may leave, */
    int waits_to_open;          /* but waits for a ticket, or for the session before, */
    int is_closing;             /* and this transaction closes it, since it is old */
    uint32_t tag;               /* of its frames' confirmations */
    size_t lane;                /* its shard's place, */
    uint32_t place;             /* and its own among the shard's sessions */
    struct krbrelay_sealer sealer; /* made with the first text */
    struct outbox_progress stored, drafted; /* what the outbox has, and has after this transaction */
    struct krbrelay_sending end;   /* how far it is, and why it stands: as its shard's lane has it */
    uint64_t room;              /* so many frames more may be stored */
    uint64_t sealed;            /* the next record's number, which is end.progress.next once stored; */
    struct record *first, *last; /* the records below it that aren't sealed yet, */
    uint64_t waiting;           /* so many, */
    struct history history;     /* and that of the frames of those before */
    uint8_t *batch;             /* the texts of the next record, */
    size_t size, batch_room;
    unsigned texts;
    sqlite3_int64 begin;        /* of which this is the first */
    sqlite3_int64 stopped_from; /* texts from this one on aren't taken; 0: all are */
    char reason[256];
    uint64_t stopped_since;     /* in seconds since 1970, if a receipt stopped it before this start; or 0 */
    struct stop *stop;          /* the receipt that stopped it, until the outbox has it; or NULL */
    int has_texts;              /* texts of it wait, up to those that were looked at: no later one is taken
                                 * before them */
    int is_touched, is_dirty, is_sealable, is_deaf; /* it is in the lists of sender.h */
    int is_unread;              /* `history` couldn't be read: nothing is sealed before it is */
    struct krbrelay_opener receipts; /* made with the first one */
    uint64_t uncarried, awaited, unreceipted, undone; /* as its shard's sums have them (sender_turns.c) */
    uint64_t published_below;   /* the frames below have left before, */
    uint64_t answered_below;    /* and those below wait for no answer of the carrier, whether that counts */
    uint32_t stands, stands_now; /* why it stands, as the outbox has it, and now: KRBRELAY_STANDS_* */
};

/* A record that isn't sealed yet: its session, its first text, its user data, and the session's next one. */
struct record { struct sending *of; sqlite3_int64 begin; size_t at, len; struct record *next; };

struct sealing {
    struct outbox *outbox;
    unsigned batch;         /* so many texts go into one record at most */
    struct record *records; /* those that aren't sealed yet, */
    uint8_t *bytes;         /* and their user data, */
    size_t count, size;     /* so many and so long */
    uint8_t *made;          /* room for frames: KRBRELAY_FRAME_LIMIT bytes */
    struct sending *stopped;
    unsigned long frames;   /* so many were sealed, */
    uint64_t nanoseconds;   /* in so much time */
};

/* A fault: there is no memory. The end overwrites what is left of texts. */
enum answer seal_begin(struct sealing *s, struct outbox *outbox, unsigned batch);
void seal_end(struct sealing *s);

/* Takes one text, or the close if its body is NULL. */
enum answer seal_text(struct sealing *s, struct sending *it, const struct waiting_text *text);

/* Ends the record of the texts that wait, and adds the close. */
enum answer seal_close(struct sealing *s, struct sending *it, sqlite3_int64 id);

/* Ends the record of the texts that wait. */
enum answer seal_rest(struct sealing *s, struct sending *it);

/* Seals all records, and stores their frames. Before the transaction is committed. */
enum answer seal_all(struct sealing *s);

/* Forgets them: the transaction is given up. */
void seal_forget(struct sealing *s);

/* Makes the session what it was before the transaction: with the history of all frames that the outbox
 * has. */
void seal_reset(struct sending *it, const struct history *history);

void seal_free(struct sending *it);

#endif
