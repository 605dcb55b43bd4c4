/* The sealers and openers of auth contexts, each kept as long as its key stays.
 *
 * kept_take takes those of a context out of a table, and kept_put puts them back: the table's lock is
 * held by neither while a message is made or read. What a context tells is compared each time, so a
 * handle that was kept answers what a new one would. */
#ifndef KEPT_H
#define KEPT_H

#include <krb5.h>
#include <krbrelay.h>

enum { KEPT_KEY_SIZE = 32, KEPT_MODES = 2 };

/* A copy of the key that handles were made with. */
struct kept_key {
    krb5_enctype etype;
    unsigned len;
    uint8_t bytes[KEPT_KEY_SIZE];
};

struct kept {
    struct kept *next;
    krb5_auth_context of;
    struct kept_key sealing, opening;
    struct krbrelay_session session;    /* the sealer's; its mode and first number aren't read */
    struct krbrelay_sealer sealer;
    struct krbrelay_opener openers[KEPT_MODES];
};

/* The handles of a context, which hold nothing at first. NULL if memory is out. */
struct kept *kept_take(krb5_auth_context ac);

void kept_put(struct kept *kept);

/* Overwrites the keys of a context, and frees its handles. */
void kept_end(krb5_auth_context ac);

/* Has `kept->sealer` seal the session's next message under the key, at the number `first`. */
enum krbrelay_answer kept_sealer(struct kept *kept, const krb5_keyblock *key,
                                 const struct krbrelay_session *session);

/* Has *opener open messages of the mode under the key. */
enum krbrelay_answer kept_opener(struct kept *kept, const krb5_keyblock *key,
                                 enum krbrelay_mode mode, struct krbrelay_opener **opener);

/* How many sealers and openers this process has made. */
unsigned long kept_made(void);

#endif
