/* What sessions that begin by a ticket need of MIT's library: a context, a keytab, and the principal
 * whose keys are in it. Each thread has its own. */
#ifndef KERBEROS_H
#define KERBEROS_H

#include <stddef.h>
#include <stdint.h>

/* The room for a principal's name with its zero, for a session's key, and for an opening. */
enum { PRINCIPAL = 256, SESSION_KEY = 32, OPENING = 65536 };

struct kerberos;

struct kerberos_options {
    const char *keytab;  /* NULL: no session begins by a ticket */
    const char *client;  /* of a sender: who it is */
    const char *service; /* the principal of all receivers of a store */
    const char *allowed; /* of a receiver: the file with the clients that may begin sessions */
    int32_t etype;       /* of a sender: of the keys that it draws */
    unsigned shards;     /* these sessions are in the shards below this one */
};

/* Ends the program with status 2 and a message unless the options that were taken go together.
 * `name` and `value` are the program's own one. */
void kerberos_check_options(const char *program, const struct kerberos_options *options,
                            const char *name, const char *value);

/* Opens it for a program whose principal is this one, in the keytab. NULL, with a line of the log,
 * if it can't be opened. */
struct kerberos *kerberos_open(const struct kerberos_options *options, const char *principal);
void kerberos_close(struct kerberos *kerberos);

/* The shard of a stream's first session. */
unsigned kerberos_shard(const struct kerberos_options *options, const char *stream);

#endif
