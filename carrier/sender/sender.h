/* The state of a sender, in five parts: sender_sessions.c has its sessions, intake.c takes texts
 * from the outbox, sender_turns.c does for a session what krb_engine says, sender.c stores what was done, and has one
 * round of the loop, and sender_report.c shows it. sender_main.c is the program.
 *
 * Which session is served and when, what leaves, and when again, what a receipt means and why a session stands is
 * krb_sender's (docs/ENGINE.md): each shard has a krbrelay_lane with all its sessions. The sender is the only one that
 * repeats, and a receipt is the only word that deletes. Nothing is asked of a session.
 *
 * A session is loaded when its first text comes, or if it has frames. When the file of sessions is
 * another one, all begins anew as in a sender that starts.
 *
 * Sessions share nothing but the outbox. One that can't go on is stopped alone, and reported in the
 * outbox's table `stopped`. */
#ifndef SENDER_H
#define SENDER_H

#include "list.h"
#include "seal.h"
#include "tickets.h"

struct options {
    struct carrier_options carrier;
    struct kerberos_options kerberos;
    uint32_t life; /* seconds after which a stream's next text begins another session */
    const char *sessions, *outbox, *metrics;
    unsigned batch, most_waiting;
    int drain;
};

/* A shard. */
struct lane {
    unsigned shard;
    struct list members;         /* its sessions, by their places */
    struct krbrelay_lane ends;   /* their ends: whose turn it is, and what is to be done. Behind the members it has one
                                  * end more at most, of a session that couldn't be loaded: */
    int has_spare;
    int has_list;                /* the list to which frames are published can be had */
    uint64_t unlisted;           /* since this moment it can't; 0: it can, or nobody asked */
    uint64_t uncarried, awaited, unreceipted; /* frames of its sessions, as of all, */
    uint64_t undone;             /* and those that didn't take effect, of sessions that aren't stopped */
};

/* What an application calls a stream. */
struct stream {
    char name[CARRIER_NAME];     /* the first member: it is found by it */
    struct sending *now, *next;  /* its session, and the one that is to come after it; or NULL */
    enum { STREAM_TAKEN, STREAM_UNREADABLE, STREAM_TRIED } key; /* its key couldn't be read: it takes no text
                                  * until all texts are looked at again, in their order */
    int is_renewed;              /* this transaction closes `now`: texts are the next one's */
};

struct sender {
    struct options options;
    struct kerberos *kerberos;  /* NULL: no session begins by a ticket */
    struct tickets *tickets;
    void *streams;              /* tsearch's tree of the streams of which texts came */
    uint64_t old_up_to;         /* sessions that were begun up to this second are old */
    int is_hung_up;             /* SIGHUP came, and the outbox isn't told yet */
    uint8_t *opening;           /* OPENING bytes */
    struct outbox outbox;
    struct ended ended;         /* sessions that this transaction forgets */
    struct carrier *carrier;
    struct sessions *sessions;  /* the file, */
    struct sessions *newer;     /* and what it is now, before that is used, or NULL */
    struct list all;            /* all sessions that are loaded, in the order of their tags; some of them: */
    void *by_name;              /* tsearch's tree of them */
    uint32_t first_tag;         /* of the first; those of confirmations below are of the past */
    struct lane lanes[CARRIER_SHARDS];
    size_t lane_count, lane_of[CARRIER_SHARDS]; /* each shard's lane, and 1; 0: none yet */
    size_t first_lane;          /* whose turn it is first */
    struct sealing sealing;
    sqlite3_int64 seen;         /* all texts up to this one were looked at */
    struct list touched;        /* sealed from in this transaction */
    struct list dirty;          /* whose progress isn't stored */
    struct list untold;         /* that are stopped, and the outbox doesn't say so yet */
    struct list sealable;       /* with texts that wait, of which some may be sealed now */
    struct list deaf;           /* with receipts that can't be heard now */
    void *kept_receipts;        /* tsearch's tree of the receipts that were there at the start, of sessions that
                                 * weren't loaded since, and of those that can't be heard now */
    struct stop *spare;         /* room for the next receipt that stops a session, or NULL */
    int has_heard;              /* the last receipts of all sessions were read, */
    int has_lost;               /* and for one of them there was no memory */
    int has_begun;              /* the sessions are loaded: before, nothing is sealed, and nothing leaves */
    uint64_t begins;            /* at this moment that is tried again */
    int is_unknown;             /* a transaction may have been stored or not: the sessions are loaded anew */
    char unknown[CARRIER_NAME]; /* the last session without a line that was reported */
    unsigned long published, again, receipts;
    uint64_t uncarried, awaited, unreceipted; /* frames of all sessions that aren't carried; that have left, and
                                 * wait for the carrier's answer; that are carried, and wait for a receipt */
    size_t unopened, standing;  /* sessions that wait to open (seal.h); that stand */
    uint64_t stored_at;         /* when the outbox was written last, in milliseconds */
    int is_unheard;             /* it has to be looked for receipts: some may have come, */
    struct krbrelay_pause hearing, hearing_again; /* after these pauses; and what can't be heard now is tried again */
    uint64_t rests;             /* after a fault nothing is done before this moment, in milliseconds */
    int hears;                  /* what comes is taken at once: all that came before was */
    uint64_t storing, carrying; /* nanoseconds */
    uint64_t carried_at;        /* when a frame was carried last, or the carrier was there and none waited for it, */
    uint64_t told_at;           /* and when it was reported that none is, or there was no reason to */
    uint64_t keys_at;           /* keys that couldn't be read are tried again then; 0: all could be, */
    unsigned key_tries;         /* and so often they were tried in vain */
    uint64_t looked_at;         /* when it was looked whether the outbox is this process's */
};

/* Opens all that its options name, of a sender that has nothing else. After a fault it has to be closed too. */
enum answer sender_open(struct sender *s);

/* One round. 1 if all is done that can be, or if the answer is a fault or ANSWER_TAKEN. Else the next one is due at
 * *until, in milliseconds of the clock that only rises, or as soon as something comes: a text, a receipt. It waits for
 * nothing, but for a database that another process has locked, and in calls of a carrier that wait (carrier.h). */
int sender_step(struct sender *s, enum answer *answer, uint64_t *until);

void sender_close(struct sender *s);

/* Tells in the outbox and in the log that a session is stopped, and since when, 0 for now. In a transaction. */
enum answer sender_tell_stopped(struct sender *s, const char *session, const char *reason, uint64_t since);

/* The same in a transaction of its own. */
enum answer sender_stop(struct sender *s, const char *session, const char *reason);

/* It isn't any more: the outbox says so, in a transaction of its own. */
enum answer sender_end_stop(struct sender *s, const char *session);

/* ---- sender_sessions.c */

/* Adds a session, as the outbox has it, which begins by a ticket if `begun` isn't NULL: that is its own then. NULL after
 * a fault of the outbox, or out of memory. */
struct sending *sender_add(struct sender *s, const struct session *of, struct begun *begun);

/* Finds the session that takes the texts of this name. In a transaction. */
enum answer sender_find(struct sender *s, const char *name, struct sending **it);

/* Makes a session what the outbox has. */
enum answer sender_load(struct sender *s, struct sending *it);

/* Makes its history that of the frames that the outbox has. */
enum answer sender_read_history(struct sender *s, struct sending *it);

/* Loads the sessions that have frames or that a receipt stopped, and tells those that have no line or whose key can't
 * be read. Forgets all, so that they are loaded anew. */
enum answer sender_begin(struct sender *s);
void sender_forget(struct sender *s);

/* ---- sender_openings.c: sessions that begin by tickets. */

/* Finds the session of this name, if the outbox has it, or that of this stream, which is begun if there is none.
 * ANSWER_DONE: there is none, or its key can't be read. */
enum answer sender_find_begun(struct sender *s, const char *name, struct sending **it);
enum answer sender_find_stream(struct sender *s, const char *name, struct sending **it);

/* Whether the session's next text is to be the first one of the stream's next session. */
int sender_is_old(const struct sender *s, const struct sending *it);

/* Whether frames of the session before it in its stream aren't carried. */
int sender_is_after(const struct sender *s, const struct sending *it);

/* Notes in what its opening says the history of the session before it, if that is known. */
enum answer sender_note_before(struct sender *s, struct sending *it);

/* Closes it, and gives the next one. `id` is the text's. Where the keytab can't be read, it goes on as it is. Within a
 * transaction, after which sender_note_renewed is called of each session from which something was sealed. */
enum answer sender_renew(struct sender *s, struct sending **it, sqlite3_int64 id);
void sender_note_renewed(struct sending *it, int is_kept);

void sender_forget_streams(struct sender *s);

/* A key couldn't be read: it is tried again after some seconds, and then ever more rarely. */
void sender_note_unreadable(struct sender *s);

/* Tries those that are due: their texts are looked at again, in their order. */
void sender_try_keys(struct sender *s);

/* ---- intake.c */

/* Whether texts may be taken now. */
int intake_wait(struct sender *s);

/* Takes them, within a transaction. */
enum answer intake_take(struct sender *s);

/* The transaction was given up, which began when all texts up to this one were looked at. */
void intake_give_up(struct sender *s, sqlite3_int64 seen);

/* ---- sender_turns.c */

/* Does what krb_sender says of sessions whose turn it is. 1 if more wait for theirs. */
int turns_all(struct sender *s);

/* A session of the lane is loaded: its pauses begin at the time of the lane's last turn, which is now. KRBRELAY_MEMORY. */
enum krbrelay_answer turns_set_time(struct sender *s, struct lane *lane);

/* When a session has its turn again, if nothing comes before, in milliseconds. */
uint64_t turns_next_time(struct sender *s);

/* Whether the list of a session's shard can't be had for long. */
int turns_is_shard_away(const struct sender *s, const struct sending *it);

/* Counts the frames that are carried now, and answers how many. */
size_t turns_count_carried(struct sender *s);

/* Whether a lane has the session, by its answer to a call: that it hasn't is never, and told. */
int turns_has(const struct sending *it, enum krbrelay_answer answer);

/* Takes the session's end from its shard's lane. */
enum answer turns_look(struct sender *s, struct sending *it);

/* Something has happened to the session: what is counted of it is counted anew. */
void turns_note(struct sender *s, struct sending *it);

/* Nothing of it leaves any more, for its `reason`: the next round says so in the outbox. */
void turns_stop(struct sender *s, struct sending *it);

/* ---- sender_receipts.c */

/* The outcome of a receipt: the more, the later it stands here. HEARD_FAULT: it can't be heard now. */
enum heard { HEARD_NOTHING, HEARD_DELIVERED, HEARD_STOPS, HEARD_FAULT };

/* Takes the receipts that came, unless that was done just now. At the start those of sessions that aren't loaded are kept
 * until they are. When it has to be done again, if nothing comes before, in milliseconds. */
void receipts_hear(struct sender *s);
uint64_t receipts_next_time(const struct sender *s);

/* Has a session hear what is kept for it, before it is in the lists above; the outcome is noted after that. */
enum heard receipts_hear_kept(struct sender *s, struct sending *it);
void receipts_note(struct sender *s, struct sending *it, enum heard heard);
void receipts_forget(struct sender *s);

/* ---- sender_report.c: the sender is the first part of service.h, its shards are the others. */

int sender_begin_showing(void);
void sender_show(struct sender *s);

#endif
