/* The cipher state of KRB-PRIV in MIT's auth context (RFC 3961 section 3), which a program asks for
 * by krb5_auth_con_initivector. krbrelay starts each message with a state of zeros. */
#ifndef CIPHER_STATE_H
#define CIPHER_STATE_H

#include <stddef.h>
#include <stdint.h>

enum { CIPHER_STATE_SIZE = 16 };

/* Whether the state, or NULL, is that before any message. */
int is_first_state(const uint8_t *state);

/* Writes the state after a KRB-PRIV message of type 17 or 18 (RFC 3962 section 6): the last block
 * of the cipher that is whole, which is the last but one that is sent. Answers 0 where the bytes
 * are no such message. */
int read_next_state(const uint8_t *frame, size_t len, uint8_t state[CIPHER_STATE_SIZE]);

#endif
