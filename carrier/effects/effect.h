/* The effect of a text. An application's own is a shared object with this function (`--effect object:FILE`), which
 * calls store_run or store_add of store.h. Here it is declared for both, and effect.c has the one that makes a row. */
#ifndef EFFECT_H
#define EFFECT_H

#include "store.h"

/* A text of a session that arrived: the part'th of the frame with this number. */
struct arrived {
    const char *session;
    const char *client, *stream; /* who began the session by a ticket, and of which stream; or "" */
    uint64_t number;
    unsigned part;
    const uint8_t *text;
    size_t len;
};

/* The effect of one text. It is called within the transaction that moves the session's number and
 * the shard's offset: what it asks of the store takes effect with them, once, or not at all. What
 * it does elsewhere may be done twice. ANSWER_DONE; after any other answer the transaction
 * is given up and tried again. */
enum answer take_effect(struct store *store, const struct arrived *it);

/* Its tables, unless they exist. Those of PostgreSQL aren't altered where all is there, since that would lock
 * them against the transactions of other receivers. */
extern const char effect_tables_sqlite[], effect_tables_postgresql[];

/* Columns that tables of SQLite of an older version don't have (database.h). */
extern const char *const effect_columns[][2];
extern const size_t effect_column_count;

#endif
