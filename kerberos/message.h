/* One message by krbrelay, as MIT's calls make and read it. */
#ifndef MESSAGE_H
#define MESSAGE_H

#include "count.h"
#include "end.h"

struct message {
    enum call call;
    krb5_context ctx;
    krb5_auth_context ac;
    const krb5_data *in;
    krb5_data *out;
    krb5_replay_data *replay;
    uint32_t number;                    /* the number that it has, or that is demanded of it */
    krb5_error_code error;              /* what the call answers */
    const char *refusal;                /* the name of what krbrelay answered, or NULL */
    char name[KRBRELAY_TEXT_SIZE];
};

/* Each answers NULL, and the call is done: its error is in the message; or the reason why MIT's
 * code has to do it, and then nothing has changed. */
const char *make_message(struct message *m, struct end *end);
const char *read_message(struct message *m, struct end *end);

/* The mode of a call, and its direction. */
enum krbrelay_mode mode_of(enum call call);
enum direction way_of(enum call call);

/* MIT's error for an answer of krbrelay, whose name is kept for the count. */
krb5_error_code refuse(struct message *m, enum krbrelay_answer answer);

/* Whether the caller asked for the replay data, and gave no room for them. */
int lacks_replay(const struct message *m, const struct end *end);

/* Whether MIT keeps a cache of what this context makes and reads, which refuses a message that
 * comes again, or comes back to its maker. No call reaches it, so MIT's code does both then. */
int has_replay_cache(const struct end *end);

#endif
