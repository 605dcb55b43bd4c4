/* The outbox of a sender: one SQLite file with the texts that wait, the frames that aren't
 * carried, and how far each session is.
 *
 * An application puts texts into the table `text`, in transactions of its own:
 *     INSERT INTO text (session, body) VALUES ('tom-7', 'hello')
 * A body that is NULL is the close. A text after it, and one of more than 1,000,000 bytes, is
 * refused at its insertion, and so is one for which there is no room (outbox_bound). The table `stopped` has each session that waits for somebody to do
 * something, and the reason; a sender that starts empties it and tries again, but for those that a receipt stopped: these
 * stay stopped as long as they have their key.
 *
 * A text is in the table `sealed` from then on, under the same id, with the
 * number and the part under which it takes effect, until a receipt says that it did. So a text that is
 * in neither table took effect.
 *
 * One transaction takes texts, stores their frames and the sessions' next numbers, and deletes the
 * texts. (session, number) is the key of the frames, which are never replaced, and a frame leaves
 * only from there: so no frame leaves under a number under which another one left.
 *
 * One process at a time seals from an outbox. Whoever opens it last owns it: each transaction
 * checks that, and a process that isn't the owner any more ends. */
#ifndef OUTBOX_H
#define OUTBOX_H

#include "key_wrapping.h"
#include "database.h"
#include "history.h"
#include "opening.h"
#include "receipts.h"
#include "sessions.h"

/* tables/limits.toml: limits, by tools/tables */
#define BATCH_TEXTS 1000         /* the most texts of a batch */
#define TEXT_BYTES 1000000       /* the most bytes of a text */
/* end of limits */

enum outbox_statement {
    LOAD_SESSION, SELECT_TEXTS, SELECT_WAITING, HAS_TEXT, DROP_TEXTS, SELECT_FRAMES, DROP_FRAMES,
    SELECT_HISTORY, SET_STANDS, DROP_SEALED,
    SET_NEXT, MOVE_NEXT, SET_CARRIED, SELECT_OWNER, SELECT_SENDING, SELECT_STOPS, SELECT_STOP, ADD_PROGRESS, SET_STOP, ADD_STOPPED, DROP_STOPPED, END_STOPPED,
    COUNT_STOPPED, COUNT_TEXTS,
    OLDEST_TEXT, ADD_OPENED, SELECT_OPENED, SELECT_STREAM, CLOSE_OPENED, SELECT_ENDED, DROP_OPENED, FORGET_SESSION,
    SELECT_WRAPPED, SET_RENEWED, SELECT_RENEWED, OUTBOX_STATEMENTS
};

enum outbox_rows { ADD_FRAME, ADD_SEALED, OUTBOX_ROWS };

enum { OUTBOX_PATH = 4096 };

/* How many texts took at most so many seconds, or longer than the last bound, from their insertion
 * until they were dropped, since a receipt said that they took effect. */
#define DELAY_BOUNDS(X) \
    X(0.01) X(0.03) X(0.1) X(0.3) X(1) X(3) X(10) X(30) X(100) X(300) X(1000) X(3600) X(86400)
#define AND_COMMA(bound) bound,
enum { DELAY_BOUNDS_COUNT = 13 };
struct delays { uint64_t counts[DELAY_BOUNDS_COUNT + 1]; double seconds; };

struct outbox {
    sqlite3 *db;
    struct statement statements[OUTBOX_STATEMENTS];
    struct rows rows[OUTBOX_ROWS];
    struct delays delays, taken; /* of texts that were dropped; those of this transaction, */
    struct krbrelay_moment clock; /* before it is committed, and when that was */
    uint64_t turn;      /* those who opened this outbox are counted: this is the turn'th */
    char path[OUTBOX_PATH]; /* where it is, and which file is there */
    uint64_t device, inode;
};


/* Whether a sender ends after this answer. */
static inline int outbox_is_lost(enum answer answer)
{
    return answer == ANSWER_FAULT || answer == ANSWER_TAKEN;
}

/* What waits: body is NULL for the close. `put` is when it was put in, in milliseconds since 1970, 0
 * if that isn't known. Valid until the next call. */
struct waiting_text {
    sqlite3_int64 id, put;
    const char *session;
    const uint8_t *body;
    size_t len;
};

/* How far a session is, as krbrelay_sending_load takes it: `at` is an offset of this list of the shard
 * (carrier.h); a shard of -1, a list of 0: it isn't known. All below `done` took effect, as
 * receipts say; `history` is that of the frames below `done` (history.h). */
struct outbox_progress {
    uint64_t next, carried, at, list, done;
    int32_t shard;
    uint32_t stands; /* KRBRELAY_STANDS_* */
    struct history history;
};

/* The receipt by which a session was stopped, since other frames than this outbox's took effect, and when it was, in
 * seconds since 1970. It counts as long as the session has its key: it doesn't open under another one. */
struct stop { size_t len; uint8_t receipt[RECEIPT]; uint64_t since; };

/* Opens it, makes its tables, and becomes its owner. */
enum answer outbox_open(struct outbox *outbox, const char *path);
void outbox_close(struct outbox *outbox);

/* Has an insertion be refused while so many texts wait, in `text` or, for a receipt, in `sealed`; 0: any number may
 * wait. It stays so in the file until the next call. */
enum answer outbox_bound(struct outbox *outbox, unsigned texts);

/* How far a session is: as its line says, if nothing of it was sealed yet. */
enum answer outbox_load(struct outbox *outbox, const struct session *session, struct outbox_progress *it);

/* Passes each session that has frames, or that a receipt stopped, to a function. What that doesn't answer 0 ends it,
 * with -1. */
typedef int outbox_take(void *given, const char *session);
enum answer outbox_sessions(struct outbox *outbox, outbox_take *take, void *given);
enum answer outbox_stops(struct outbox *outbox, outbox_take *take, void *given);

/* The receipt that stopped a session, of no bytes if none did. */
enum answer outbox_find_stop(struct outbox *outbox, const char *session, struct stop *stop);

/* Whether a text waits after this one, as far as that can be read: after a fault one may. */
int outbox_may_have_text(struct outbox *outbox, sqlite3_int64 after);

/* ANSWER_DONE, or ANSWER_TAKEN: another process is the owner. ANSWER_AGAIN: that can't be read now. */
enum answer outbox_owned(struct outbox *outbox);

/* Whether the file is still the one at its place. If it isn't, as where another one was put there, that
 * is reported: what this process stores is lost. */
int outbox_is_there(const struct outbox *outbox);

/* How many texts wait, for being sealed or for a receipt, as the bound counts them: as many as it has and 100,000 of
 * each at most; and how many sessions are stopped. */
enum answer outbox_count_texts(struct outbox *outbox, uint64_t *count);
enum answer outbox_count_stopped(struct outbox *outbox, uint64_t *count);

/* Whether a text of a session that isn't stopped is among the first 10,000 that aren't sealed, and when the oldest
 * was put in, in seconds since 1970, 0 if that isn't known. */
enum answer outbox_oldest_text(struct outbox *outbox, int *is_there, uint64_t *second);

/* ---- Within a transaction. It begins with ANSWER_DONE; ANSWER_AGAIN: another process's transaction took long, or who the
 * owner is can't be read now. ANSWER_TAKEN: another process is the owner. */
enum answer outbox_begin(struct outbox *outbox);

/* Begins with the texts after one of them, so many at most; or with those under this name up to one of them. Each call
 * of outbox_next_text gives one, the oldest first. The caller ends the rows. */
struct statement *outbox_select_texts(struct outbox *outbox, sqlite3_int64 after, size_t limit);
struct statement *outbox_select_waiting(struct outbox *outbox, const char *name, sqlite3_int64 to, size_t limit);
enum answer outbox_next_text(struct statement *select, struct waiting_text *text);

enum answer outbox_drop_texts(struct outbox *outbox, sqlite3_int64 first, sqlite3_int64 last);

/* Adds a frame, with the history of the session up to it. What is added can be read once outbox_insert was called, or the
 * transaction was committed; the session's name stays until then. */
enum answer outbox_add_frame(struct outbox *outbox, const char *session, uint64_t number,
                             const uint8_t *frame, size_t len, const struct history *history);

/* Stores that a text is sealed under this number, as this part of the record. */
enum answer outbox_add_sealed(struct outbox *outbox, const struct waiting_text *text, const char *session,
                              uint64_t number, unsigned part);

/* Inserts what was added. */
enum answer outbox_insert(struct outbox *outbox);

/* Moves a session's next number, by compare-and-set: one that has no row stands at its first
 * number. */
enum answer outbox_set_next(struct outbox *outbox, const struct session *session, uint64_t from,
                            uint64_t to);

/* Stores how far a session is carried and done; deletes the frames that are done, and once that is
 * committed `delays` has how long their texts took. `next` stays. */
enum answer outbox_set_carried(struct outbox *outbox, const char *session,
                               const struct outbox_progress *it);
enum answer outbox_drop_done(struct outbox *outbox, const char *session, uint64_t done);

/* Stores the receipt that stopped a session, also where nothing of it was sealed. Since when it is stopped stays. */
enum answer outbox_set_stop(struct outbox *outbox, const struct session *session, const struct stop *stop);

/* Says that a session is stopped, why, and since when, 0 for now; that it isn't; that none is. */
enum answer outbox_add_stopped(struct outbox *outbox, const char *session, const char *reason, uint64_t since);
enum answer outbox_end_stopped(struct outbox *outbox, const char *session);
enum answer outbox_drop_stopped(struct outbox *outbox);

/* ---- Sessions that begin by tickets (opening.h), whose keys are wrapped (key_wrapping.h). */

/* Such a session, which is the turn'th of its stream; what `opened` says of a client is nothing. */
struct begun {
    struct opened opened;
    uint64_t turn, since; /* begun in this second */
    int is_closed;
};

/* Finds the session of this name, or the last one of a stream. A key that can't be read is a fault. The caller
 * overwrites the key. */
enum answer outbox_find_begun(struct outbox *outbox, struct kerberos *kerberos, const char *name,
                              struct begun *it);
enum answer outbox_find_stream(struct outbox *outbox, struct kerberos *kerberos, const char *stream,
                               struct begun *it);

/* Wraps its key as its row is to have it: 0, or -1 with a report, as where the keytab can't be read. */
int outbox_wrap(struct kerberos *kerberos, const struct begun *it, struct wrapped *wrapped);

/* In a transaction: adds it, or notes that it is closed. */
enum answer outbox_add_begun(struct outbox *outbox, const struct begun *it, const struct wrapped *wrapped);
enum answer outbox_close_begun(struct outbox *outbox, const struct begun *it);

/* The same: forgets sessions of its stream that ended before the one before it, and of which nothing waits for a
 * receipt, nor of the one after them, whose opening names them. Adds them to the list, as long as it has room. */
enum { ENDED = 4096 }; /* more than begin in one transaction */
struct ended { size_t count; struct { char name[CARRIER_NAME]; unsigned shard; } at[ENDED]; };
enum answer outbox_forget_ended(struct outbox *outbox, const struct begun *it, struct ended *ended);

/* The second up to which sessions that were begun are old; in a transaction of its own: it is this
 * one. */
enum answer outbox_renewed(struct outbox *outbox, uint64_t *second);
enum answer outbox_set_renewed(struct outbox *outbox, uint64_t second);

/* The same: wraps keys that aren't wrapped under the newest key. */
enum answer outbox_wrap_anew(struct outbox *outbox, struct kerberos *kerberos);

/* ---- */

enum answer outbox_commit(struct outbox *outbox);
void outbox_rollback(struct outbox *outbox);

/* ---- The frames of a session from a number on, as outbox_select_texts gives texts. */
void outbox_select_frames(struct outbox *outbox, const char *session, uint64_t from,
                          unsigned limit);
enum answer outbox_next_frame(struct outbox *outbox, uint64_t *number, const uint8_t **frame, size_t *len);
void outbox_end_frames(struct outbox *outbox);

/* The history of all frames of a session below a number: it stands beside the last of them, or, where an older
 * version sealed that, follows from that of those below `from` and the frames since. It isn't known if one of
 * them isn't there. After a fault it may be known, and can't be read now. */
enum answer outbox_history(struct outbox *outbox, const struct session *session, uint64_t from,
                           const struct history *history,
                           uint64_t to, struct history *found);

/* In a transaction: why a session stands now, KRBRELAY_STANDS_*. */
enum answer outbox_set_stands(struct outbox *outbox, const char *session, uint32_t stands);

#endif
