/* What a receiver does for one shard: it takes what the carrier has after the stored offset, some
 * frames at a time, and passes each to the receiver of its session, which libkrbrelay keeps. One
 * transaction has the effects of their texts, what the sessions demand next, and the new offset.
 * The offset is the acknowledgement of the list: whoever continues begins after it.
 *
 * krb_receiver (krbrelay_shard_new) decides: what each frame is taken for, up to where the list is read, which frames a
 * transaction takes, what happens after a failure and when, and which receipt leaves. These files ask the store, the
 * carrier and effects for what it says.
 *
 * It reads forward only, and never goes back to what it has refused. A session whose demanded frame is missing, or was
 * refused for a reason that may pass (this receiver's clock, the skew, addresses), asks for it by its receipt.
 * Of what opens under no key here, and of names that have no line, nothing is said: their senders hear of no
 * receipt, and send them again.
 *
 * Each transaction compares the shard, and each session of which a frame was accepted or wasn't
 * settled.
 *
 * A session is loaded when its first frame comes: what the store has of it is read before the
 * transaction, and compared in it. Sessions of which no frame comes cost nothing. */
#ifndef SHARD_H
#define SHARD_H

#include "carrier.h"
#include "effects.h"
#include "list.h"
#include "opening.h"
#include "service.h"
#include "sessions.h"
#include "store.h"

struct shard_options {
    const char *store;
    struct carrier_options carrier;
    struct kerberos_options kerberos;
    unsigned batch;
    uint32_t skew;
    int until_closed;
};

/* One session of the shard, from its first frame on. */
struct receiving {
    struct session of;             /* the first member: it is found by its name */
    struct opened *opened;         /* how it began by a ticket; NULL: it has a line */
    uint64_t opened_at;            /* where its opening is, if this transaction takes it; or 0 */
    struct krbrelay_receiver receiver; /* made with the first frame after loading */
    struct krbrelay_opener opener; /* looks at what was refused; made when it is first needed */
    uint32_t place;                /* among the sessions of krb_receiver's shard, */
    struct krbrelay_row end_row;   /* of which this is what the transaction under way would store */
    struct demand stored, drafted; /* what the store has, and has after this transaction, */
    unsigned long loading;         /* as of this loading of the shard */
    int is_made;                   /* the receiver is what is stored, and what followed */
    int has_opened;                /* a frame opened: the key is right */
    int is_changed;                /* it is in the list of those that this transaction moves, */
    int is_standing;               /* and of those that stand: the last frame wasn't accepted */
};

/* What the library answers of a frame that it refuses (answers.toml: reasons). */
#define REFUSAL_NAMES(X) \
    X(ETYPE_NOSUPP) X(BAD_INTEGRITY) X(SKEW) X(BADADDR) X(BADVERSION) X(MSG_TYPE) X(MODIFIED) \
    X(BADORDER) X(INAPP_CKSUM) X(FIELD_TOOLONG) X(MALFORMED) X(BAD_RECORD) X(AFTER_CLOSE)
/* end of reasons */

/* Reasons for which a frame is refused: there is no line for its session, an answer of the library's,
 * another answer, or a reason of an opening. */
#define SHARD_COUNT(name) +1
enum {
    OTHER_REFUSAL = 1 REFUSAL_NAMES(SHARD_COUNT),
    REFUSALS = OTHER_REFUSAL + 1 OPENING_REASONS(SHARD_COUNT)
};

struct shard_counts {
    unsigned long frames, texts, aside, accepted, repeats, early, fenced, commits, opened, receipts;
    unsigned long refused[REFUSALS]; /* neither as repeats nor as early */
    unsigned long long bytes;
    uint64_t opening, fetching, storing; /* nanoseconds */
};

/* Frames of one session that were taken in one call, which come one after another. */
struct call {
    int first, count;              /* which of the transaction's frames */
    struct krbrelay_taken taken[KRBRELAY_MOST_FRAMES];
    size_t at[KRBRELAY_MOST_FRAMES], used; /* where in the shard's bytes each record begins, and the last ends */
};

/* What a transaction has done, which counts once it is stored. */
struct counted { unsigned long texts, accepted, aside, closed; unsigned long long bytes; };

/* So many texts of this frame were answered by a command, and aren't stored: they aren't given to it again. */
struct done_parts { char session[CARRIER_NAME]; uint64_t number; unsigned parts; };

struct shard {
    const struct shard_options *options;
    struct sessions *sessions;     /* the file, of which this is a user */
    struct kerberos *kerberos;     /* NULL: no session begins by a ticket */
    unsigned number;
    struct store *store;           /* NULL: it has to be opened (again) */
    struct refusals *refusals;     /* texts that an effect refused (effects.h), or NULL */
    struct carrier *carrier;
    struct krbrelay_shard ends;    /* krb_receiver's: all sessions' ends, the transaction, pauses and receipts */
    void *receivings;              /* tsearch's tree of a struct receiving for each session */
    size_t count;                  /* so many there are, and these lists have room for: */
    struct list members;           /* those that `ends` has, by their places: whoever forgets them has it loaded again, */
    struct list changed, standing;
    struct counted counted;        /* what this transaction has done, */
    int is_begun;                  /* whether the store's is open, */
    uint64_t moved_to;             /* up to which offset it moves the shard, */
    int place;                     /* and which frame it is at */
    int is_last;                   /* it ends with this frame */
    struct done_parts done_parts;
    size_t ended;                  /* so many of them are closed */
    struct list asked;             /* those of which the store is asked, */
    struct list opened_now;        /* and those whose openings this transaction takes */
    struct carried *frames;        /* those of the last fetch, */
    int next, fetched;             /* of which those from `next` on weren't taken yet */
    struct receiving **of_frames;  /* of each frame the session, or NULL */
    struct krbrelay_reading reading; /* how far it was read, as `ends` said last */
    int has_wrapped;               /* keys that are stored are wrapped under the newest one */
    char unknown[CARRIER_NAME];    /* the last name that the store was asked for in vain */
    struct krbrelay_moment moment; /* when this transaction's frames are taken */
    uint64_t lap;                  /* up to when its time was counted */
    uint64_t answered_at;          /* when the carrier answered last, */
    uint64_t looked_at;            /* when a frame came last, or the list was checked, */
    uint64_t store_checked_at, shown_at; /* and the store, and when it was shown last */
    uint64_t rests;                /* nothing but receipts before this moment, in milliseconds */
    struct krbrelay_pause unlisted; /* after a look for a list that isn't there */
    int hears;                     /* what comes is taken at once, since it doesn't rest */
    unsigned long loading;         /* so often it was loaded */
    int is_loaded;                 /* what is read follows what is stored, as `ends` said last */
    size_t open;                   /* if it is asked for, so many sessions aren't closed */
    uint8_t *bytes;                /* of the records of these frames, and of a frame that is looked at */
    struct call call;
    struct shard_counts counts;
};

/* Opens store and carrier. */
enum answer shard_start(struct shard *shard);

/* From now on these are its sessions of the file, of which it becomes a user. What it knew of others
 * ends. */
void shard_use(struct shard *shard, struct sessions *sessions);

/* Fetches frames, and takes them in a transaction, or some of them. Answers how many there were; or -1, if all is tried again
 * after a pause: after a fault of the store, which is opened again then, or where the effect of a text can't be had now,
 * as the log says. The next step is due at *until, in milliseconds of the clock that only rises, or as soon as frames
 * come, if it hears. It waits for nothing but the store, effects, and what a server says of a list. */
int shard_step(struct shard *shard, uint64_t *until);

void shard_stop(struct shard *shard);

/* ---- shard_report.c: logs what was counted; shows it as a part of service.h. */

extern const struct metric shard_metrics[], shard_stands_metric;
extern const unsigned shard_metrics_count;

/* Counts a frame that was refused with libkrbrelay's answer, or 0 if its name has no line; an
 * opening that wasn't taken. */
void shard_count_refused(struct shard_counts *counts, uint32_t answer);
void shard_count_unopened(struct shard_counts *counts, enum opening_answer answer);

/* Work took so many nanoseconds so far. */
void shard_report(const struct shard *shard, const char *event, uint64_t took);
void shard_show(struct shard *shard, unsigned part);

/* Shows it within a transaction that takes long, each second. */
void shard_note_alive(struct shard *shard);

/* ---- Frames, in a transaction. */

/* Takes one of those that were fetched, of those up to `end`, perhaps alone (effects.h); and leaves those from this one
 * on for another transaction. */
enum answer shard_take(struct shard *shard, int place, int end, int is_alone);
void shard_leave(struct shard *shard, int place);

/* ---- shard_transaction.c */

/* How a transaction ended: it is stored (SHARD_DONE), or failed (KRBRELAY_FAILURE_*), and what krb_receiver said of that
 * (KRBRELAY_THEN_*). */
enum { SHARD_DONE = 0 };
struct transacted { uint32_t failure, then; };

/* One transaction of frames that were fetched. */
struct transacted shard_transact(struct shard *shard);

/* Opens the store's transaction, unless it is open. */
enum answer shard_begin_late(struct shard *shard);

/* ---- shard_load.c: which sessions a shard has, and what the store has of them. */

/* Makes all what store and carrier have. ANSWER_LATER: the carrier doesn't answer, or has no such shard yet. A fault is
 * the store's. */
enum answer shard_load(struct shard *shard);

/* Has `ends` say how far the shard was read. */
enum answer shard_look(struct shard *shard);

/* Loads the sessions of these of the frames that were fetched. */
enum answer shard_load_frames(struct shard *shard, int first, int end);

/* Finds the session of this name, which is loaded or has a line; NULL if there is none. A fault: there is no memory. */
enum answer shard_find(struct shard *shard, const char *name, struct receiving **found);

/* Adds a session of which nothing is known. NULL if there is no memory. */
struct receiving *shard_add(struct shard *shard, const struct session *of);

void shard_forget(struct shard *shard);

/* ---- shard_open.c: sessions that begin by tickets. */

/* Finds the session of a frame whose name has no line, in the store or by its opening. */
enum answer shard_find_opened(struct shard *shard, const struct carried *it, struct receiving **found);

/* Finds the session of the stream before this one, if it is stored. */
enum answer shard_find_before(struct shard *shard, const struct receiving *of, struct receiving **found);

/* What krb_engine takes a session's beginning for, KRBRELAY_JUDGED_*, by the session of its stream before it. */
uint32_t shard_judge(struct shard *shard, const struct receiving *of);

/* ---- shard_receipts.c */

/* All receipts that are due are sealed and published. */
void shard_pay(struct shard *shard);
void shard_pay_rest(struct shard *shard); /* before it ends: however short the time since the last ones is */

#endif
