/* How a session begins by a ticket: its first frame, the opening, is an AP-REQ (RFC 4120 3.2) of
 * MIT's library, and after it the text
 *
 *     krbrelay session 3 NAME STREAM BEFORE SHARD [HISTORY]
 *
 * which the authenticator's checksum covers. The session's key is the authenticator's subkey. The
 * sender draws it first, so it can make an opening of the same session anew under any later ticket.
 * NAME follows from the key (krb5_c_prf), so nobody can take another session's name, and a key
 * has one name. STREAM is what the application calls it, BEFORE the session of the stream before
 * this one, or '-', SHARD the shard in which the stream is, a number below CARRIER_SHARDS without
 * zeros before it, and HISTORY that of the frames of BEFORE up to its close (history.h): so a stream goes on
 * after the frames that took effect, and not after others under their numbers. HISTORY isn't there in
 * a stream's first session, and where it isn't known. One space stands between two words, and nothing
 * after the last. The opening stands before number 1. Nothing is decided by what nobody signed:
 * the AP-REQ's own sequence number, its options and its bytes outside of the ciphers.
 *
 * A sender of the version before writes `1 NAME STREAM BEFORE`, or `2 NAME STREAM BEFORE HISTORY`. Such an opening
 * doesn't say its shard, and is taken in the shard in which it comes first.
 *
 * No replay cache is used, since a carrier repeats: another opening of a known session is a
 * repeat. */
#ifndef OPENING_H
#define OPENING_H

#include "carrier.h"
#include "history.h"
#include "kerberos.h"
#include "sessions.h"

/* A session that begins by a ticket. */
struct opened {
    char name[CARRIER_NAME], stream[CARRIER_NAME], before[CARRIER_NAME]; /* before: "" for none */
    unsigned shard;
    int says_shard;         /* its opening says it; 0: that is of the version before */
    struct history closed;  /* of the session before, up to its close */
    char client[PRINCIPAL]; /* who began it, as the ticket says */
    int32_t etype;
    uint8_t key[SESSION_KEY];
    size_t key_len;
    uint64_t ends;          /* when the ticket ends, in seconds since 1970 */
};

/* Why an opening isn't taken, each reason by its name. All of these may pass: a keytab is written
 * anew, a clock is set, a client is allowed. OPENING_FAULT is out of memory and the like. */
#define OPENING_REASONS(X) \
    X(MALFORMED) /* it isn't an AP-REQ and the text, or the text isn't of that form */ \
    X(NO_KEY) /* the keytab has no key for the ticket, or the ticket is another service's */ \
    X(CHANGED) /* ticket, authenticator or checksum don't fit: changed, or another's */ \
    X(SKEW) /* the authenticator's time, by krb5.conf's `clockskew` */ \
    X(EXPIRED) /* the ticket has ended, or hasn't begun */ \
    X(NO_SUBKEY) /* the ticket's key would serve several sessions */ \
    X(ETYPE) /* the subkey's is none of 17 and 18 */ \
    X(NAME) /* the name isn't the key's, or the frame has another one */ \
    X(CLIENT) /* the client isn't allowed */ \
    X(ELSEWHERE) /* the session is of another shard: somebody copied its opening */ \
    X(FORKED) /* the stream has another session after BEFORE: is this an older outbox? */ \
    X(OTHER) /* what else the library says */

#define OPENING_VALUE(name) OPENING_##name,
enum opening_answer {
    OPENING_FAULT = -1,
    OPENING_OK,
    OPENING_REASONS(OPENING_VALUE)
    OPENING_ANSWERS
};

/* The name of an answer, for logs and metrics. */
const char *opening_name(enum opening_answer answer);

/* Whether a frame is one, if it is any. */
int opening_is(const uint8_t *frame, size_t len);

/* Draws the key of a session, and makes the name that follows from it. 0, or -1 with a report. */
int opening_draw(struct kerberos *kerberos, struct opened *it);

/* The session as those of the file are, in this shard; the key of the way back follows from its key. 0, or -1 with a
 * report. The caller overwrites it. */
int opening_session(struct kerberos *kerberos, const struct opened *it, unsigned shard, struct session *of);

/* Takes an opening that came under this name in this shard. It doesn't look for other sessions of the
 * stream. The caller overwrites the key. */
enum opening_answer opening_take(struct kerberos *kerberos, unsigned shard, const char *name,
                                 const uint8_t *frame, size_t len, struct opened *it);

/* The text of an opening. */
enum { OPENING_TEXT = 192 };
void opening_text(const struct opened *it, char text[OPENING_TEXT]);

#endif
