/* What MIT's auth context has for the messages of one direction. */
#ifndef END_H
#define END_H

#include <krb5.h>
#include <krbrelay.h>

enum direction { SENDING, RECEIVING };

struct end {
    krb5_int32 flags;                   /* KRB5_AUTH_CONTEXT_* */
    uint32_t number;                    /* the next sequence number of this direction */
    krb5_keyblock *key;                 /* a copy, or NULL */
    int has_local, has_remote;          /* 0: the address below isn't told */
    struct krbrelay_address local;      /* with its port, where the context has one */
    struct krbrelay_address remote;
    uint8_t *cipher_state;              /* the 16 bytes in the context, or NULL */
};

/* Reads an auth context. Answers NULL, or the reason why krbrelay doesn't serve it. end_close ends
 * the end in both cases. */
const char *end_open(struct end *end, krb5_context ctx, krb5_auth_context ac, enum direction way);

/* Overwrites the key, and frees it. */
void end_close(struct end *end, krb5_context ctx);

/* Makes this the next number of the direction, in the auth context that end_open read. */
void set_number(krb5_auth_context ac, enum direction way, uint32_t number);

#endif
