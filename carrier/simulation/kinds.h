/* The kinds of faults of a run, and of what makes a run another one. A profile is the names of some, joined by '+', and
 * perhaps limits, as `texts=5`, which make a run smaller. */
#ifndef KINDS_H
#define KINDS_H

#include <stdint.h>

/* Each with its name, and what is counted of it. */
#define KINDS(X) \
    X(LOST, "lost", "frames, confirmations and receipts that were lost or came twice") \
    X(CARRIER, "carrier", "calls of the carrier that failed, or said so") \
    X(DELETED, "deleted", "shards that were deleted and made anew") \
    X(CUT, "cut", "shards that lost their last frames, which were confirmed") \
    X(PURGED, "purged", "times that the kept receipts were purged") \
    X(KILLED, "killed", "programs that were stopped, or killed within a call") \
    X(STOPPED, "stopped", "programs that were stopped for some seconds, and went on") \
    X(DATABASE, "database", "calls of SQLite that failed, drawn one by one") \
    X(STATEMENT, "statement", "calls of one statement, or of one table, that failed") \
    X(UNREADABLE, "unreadable", "reads of the table frame that failed") \
    X(STORE_UNKNOWN, "store_unknown", "commits of a store that happened and said no") \
    X(OUTBOX_UNKNOWN, "outbox_unknown", "commits of an outbox that happened and said no") \
    X(UNCOMMITTED, "uncommitted", "commits that failed") \
    X(SLOW, "slow", "calls that took up to three seconds") \
    X(MEMORY, "memory", "allocations that failed") \
    X(RESTORED, "restored", "outboxes that were restored from an older copy") \
    X(FORKED, "forked", "second senders of a copy of the outbox") \
    X(TAKEN_OVER, "taken_over", "second senders of the same outbox") \
    X(MOVED, "moved", "lines that moved to another shard") \
    X(ADDED, "added", "lines of others that were added to the file of sessions") \
    X(LATER, "later", "lines that receivers had later than the sender") \
    X(ROW_GONE, "row_gone", "rows of the table frame that were deleted") \
    X(ROW_SPOILT, "row_spoilt", "rows of the table frame that were spoilt") \
    X(REFUSED_A_WHILE, "refused_a_while", "effects that refused a text for a while") \
    X(REFUSED, "refused", "effects that refused a text for good") \
    X(REFUSED_MANY, "refused_many", "effects that refused one of thirty texts of a session for good") \
    X(ASIDE, "aside", "texts that were put aside") \
    X(SLOW_EFFECTS, "slow_effects", "effects that took 400 ms") \
    X(CLOCK, "clock", "seconds in which a sender's clock was wrong by three hours") \
    X(BOUNDED, "bounded", "texts that a full outbox refused") \
    X(TICKETS, "tickets", "openings of streams by tickets") \
    X(KEYS, "keys", "keys of streams that couldn't be read or wrapped") \
    X(KDC, "kdc", "tickets that the KDC didn't give") \
    X(MANY, "many", "texts of 210 sessions of one shard") \
    X(BURSTS, "bursts", "bursts of 1,200 texts") \
    X(CALM, "calm", "frames, confirmations and receipts that were lost one at a time") \
    X(SILENT, "silent", "frames that the carrier took and forgot, in half a minute") \
    X(SKEWED, "skewed", "seconds in which the clocks of receivers were wrong by three hours") \
    X(COPIED, "copied", "frames that somebody copied into another shard")

#define KIND_VALUE(name, word, text) KIND_##name,
enum kind { KINDS(KIND_VALUE) KIND_COUNT };

/* Whether this run has the kind. */
int has(enum kind kind);

/* Limits: of sessions, of each one's texts, and of the seconds in which faults happen. */
#define LIMITS(X) X(NAMES, "names") X(TEXTS, "texts") X(SECONDS, "seconds")
#define LIMIT_VALUE(name, word) LIMIT_##name,
enum limit { LIMITS(LIMIT_VALUE) LIMIT_COUNT };

/* This number, or the limit if that is less. */
unsigned limited(enum limit limit, unsigned number);

/* Whether the run has only kinds after which it is known how often each frame leaves, and when. */
int is_calm(void);

/* It happened so often. */
void happened(enum kind kind, uint64_t times);

/* The run has these kinds and limits. 0 if one of the words is none. */
int kinds_choose(const char *words);

/* A line for each kind: how often it happened. */
void kinds_print(void);

#endif
