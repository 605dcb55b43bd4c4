/* krb5_rd_safe and krb5_rd_priv, by krbrelay or by MIT's code. */
#include "cipher_state.h"
#include "kept.h"
#include "message.h"

#include <errno.h>
#include <stdlib.h>
#include <string.h>

/* What krbrelay reports of a message that it opened. */
struct opened {
    size_t size;
    struct krbrelay_carried carried;
};

/* Why MIT's code has to read it, or NULL. */
static const char *passes_on(const struct message *m, const struct end *end)
{
    if (lacks_replay(m, end))
        return "no_replay_data";        /* MIT answers KRB5_RC_REQUIRED */
    if (has_replay_cache(end))
        return "replay_cache";
    if (m->call == RD_PRIV && !is_first_state(end->cipher_state))
        return "chained_cipher_state";
    return m->in->length > KRBRELAY_FRAME_LIMIT ? "long_message" : NULL;
}

/* MIT's demands: the sender's address where the context has one; the receiver's where message and
 * context have one; and the number, of which none means 0, if it is demanded now. */
static void demand_of(struct krbrelay_demand *demand, const struct end *end, int numbered)
{
    memset(demand, 0, sizeof *demand);
    if (end->has_remote) {
        demand->how_sender = KRBRELAY_REQUIRED;
        demand->sender = end->remote;
    }
    if (end->has_local) {
        demand->how_receiver = KRBRELAY_IF_PRESENT;
        demand->receiver = end->local;
    }
    if (numbered) {
        demand->how_number = KRBRELAY_ABSENT_IS_0;
        demand->number = end->number;
    }
}

static enum krbrelay_answer open_frame(struct message *m, const struct end *end, int numbered,
                                       uint8_t *room, struct opened *opened)
{
    const struct krbrelay_moment unused = { 0 };    /* no time is demanded of krbrelay */
    struct kept *kept = kept_take(m->ac);
    struct krbrelay_opener *opener;
    struct krbrelay_demand demand;
    enum krbrelay_answer answer;
    if (kept == NULL)
        return KRBRELAY_MEMORY;
    demand_of(&demand, end, numbered);
    answer = kept_opener(kept, end->key, mode_of(m->call), &opener);
    if (answer == KRBRELAY_OK)
        answer = krbrelay_opener_open(opener, (const uint8_t *)m->in->data, m->in->length, &demand,
                                      &unused, room, m->in->length, &opened->size,
                                      &opened->carried);
    kept_put(kept);
    return answer;
}

/* Without a local address MIT finds the message's receiver among the addresses of the host. */
static krb5_error_code check_host(krb5_context ctx, const struct krbrelay_carried *carried)
{
    krb5_address **ours = NULL, theirs = { 0 };
    uint8_t bytes[sizeof carried->receiver.bytes];
    krb5_error_code error = krb5_os_localaddr(ctx, &ours);
    if (error != 0)
        return error;
    memcpy(bytes, carried->receiver.bytes, sizeof bytes);
    theirs.magic = KV5M_ADDRESS;
    theirs.addrtype = carried->receiver.kind;
    theirs.length = carried->receiver.len;
    theirs.contents = bytes;
    if (!krb5_address_search(ctx, &theirs, ours))
        error = KRB5KRB_AP_ERR_BADADDR;
    krb5_free_addresses(ctx, ours);
    return error;
}

/* What MIT demands of the host, by its own calls. */
static krb5_error_code check_carried(struct message *m, const struct end *end,
                                     const struct krbrelay_carried *carried)
{
    krb5_error_code error = 0;
    if (!end->has_local && carried->has_receiver)
        error = check_host(m->ctx, carried);
    if (error != 0)
        m->refusal = "BADADDR";
    return error;
}

/* Another number came: MIT looks at the host before it. */
static krb5_error_code refuse_number(struct message *m, const struct end *end, uint8_t *room)
{
    struct opened opened = { 0 };
    krb5_error_code error = 0;
    if (open_frame(m, end, 0, room, &opened) == KRBRELAY_OK)
        error = check_carried(m, end, &opened.carried);
    return error != 0 ? error : refuse(m, KRBRELAY_BADORDER);
}

/* MIT's mark in the flags of a sender that writes its numbers as RFC 4120 says: it is set by a
 * number whose highest bit stands where other encoders take it for a sign. */
static krb5_error_code mark_sender(struct message *m, const struct end *end)
{
    const krb5_int32 mark = 0x00080000;
    const uint32_t n = end->number;
    int shows = (n & 0xffffff80u) == 0x80 || (n & 0xffff8000u) == 0x8000 ||
                (n & 0xff800000u) == 0x800000;
    if (!shows || (end->flags & mark) != 0)
        return 0;
    return krb5_auth_con_setflags(m->ctx, m->ac, end->flags | mark);
}

/* What MIT's call leaves: user data, replay data, and the next number. */
static krb5_error_code leave(struct message *m, const struct end *end, uint8_t *user_data,
                             const struct opened *opened)
{
    const krb5_int32 told = KRB5_AUTH_CONTEXT_RET_TIME | KRB5_AUTH_CONTEXT_RET_SEQUENCE;
    krb5_error_code error = 0;
    if ((end->flags & KRB5_AUTH_CONTEXT_DO_SEQUENCE) != 0)
        error = mark_sender(m, end);
    if (error != 0)
        return error;
    if (opened->size == 0)
        free(user_data);
    else
        m->out->data = (char *)user_data;
    m->out->length = (unsigned)opened->size;
    if ((end->flags & told) != 0) {
        m->replay->timestamp = (krb5_timestamp)opened->carried.seconds;
        m->replay->usec = (krb5_int32)opened->carried.microseconds;
        m->replay->seq = opened->carried.number;
    }
    if ((end->flags & KRB5_AUTH_CONTEXT_DO_SEQUENCE) != 0)
        set_number(m->ac, RECEIVING, end->number + 1);
    return 0;
}

/* MIT looks at the first byte before all else. */
static int is_of_kind(const struct message *m)
{
    const uint8_t tag = mode_of(m->call) == KRBRELAY_SAFE ? 0x74 : 0x75;
    return m->in->length > 0 && (uint8_t)m->in->data[0] == tag;
}

static krb5_error_code read_into(struct message *m, const struct end *end, uint8_t *room)
{
    struct opened opened = { 0 };
    uint8_t state[CIPHER_STATE_SIZE];
    krb5_error_code error;
    int numbered = (end->flags & KRB5_AUTH_CONTEXT_DO_SEQUENCE) != 0;
    enum krbrelay_answer answer = open_frame(m, end, numbered, room, &opened);
    int chains = m->call == RD_PRIV && end->cipher_state != NULL;
    if (answer == KRBRELAY_BADORDER)
        return refuse_number(m, end, room);
    if (answer == KRBRELAY_OK && chains &&
        !read_next_state((const uint8_t *)m->in->data, m->in->length, state))
        answer = KRBRELAY_MALFORMED;
    if (answer != KRBRELAY_OK)
        return refuse(m, answer);
    error = check_carried(m, end, &opened.carried);
    if (error == 0)
        error = leave(m, end, room, &opened);
    if (error == 0 && chains)
        memcpy(end->cipher_state, state, sizeof state);
    return error;
}

const char *read_message(struct message *m, struct end *end)
{
    uint8_t *room;
    const char *reason = passes_on(m, end);
    if (reason != NULL)
        return reason;
    memset(m->out, 0, sizeof *m->out);
    m->out->magic = KV5M_DATA;
    if (!is_of_kind(m)) {
        m->error = refuse(m, KRBRELAY_MSG_TYPE);
        return NULL;
    }
    room = malloc(m->in->length);
    m->error = room == NULL ? ENOMEM : read_into(m, end, room);
    if (m->error != 0)
        free(room);
    return NULL;
}
