/* What a store has of sessions that began by a ticket (opening.h): a row each of the table `opened`,
 * in which the key is wrapped (key_wrapping.h). A row is added in the transaction that takes the opening,
 * and says the shard of the session: only receivers of that shard go on with it. A row is never changed, but for two
 * things: its key is wrapped anew, and an opening that says its shard moves the row there, if one of the version before
 * began the session in another shard, since somebody copied it. After one session of a client's stream,
 * or at its beginning, there is one session at most. */
#ifndef STORED_OPENINGS_H
#define STORED_OPENINGS_H

#include "opening.h"
#include "store.h"

typedef enum answer openings_take(void *given, const struct opened *it);

/* Passes the session of this name, if there is one, to a function. What that doesn't answer DONE ends it, as a
 * fault does. A key that can't be read is such a fault: is the keytab there? */
enum answer openings_find(struct store *store, struct kerberos *kerberos, const char *name, openings_take *take,
                          void *given);

/* Whether what the store has lets a session begin: OPENING_OK, OPENING_FORKED if the client's stream has another
 * session at this place, OPENING_ELSEWHERE if it has this one in another shard, and its opening doesn't say the shard,
 * or OPENING_FAULT. */
enum opening_answer openings_judge(struct store *store, const struct opened *it);

/* Within a transaction: adds it. */
enum answer openings_add(struct store *store, struct kerberos *kerberos, const struct opened *it);

/* Outside of one: wraps the keys of a shard's sessions that aren't wrapped under the newest
 * key. */
enum answer openings_wrap_anew(struct store *store, struct kerberos *kerberos, unsigned shard);

#endif
