/* krb5_mk_safe and krb5_mk_priv, by krbrelay or by MIT's code. */
#include "cipher_state.h"
#include "kept.h"
#include "message.h"

#include <errno.h>
#include <stdlib.h>
#include <string.h>

/* Why MIT's code has to make it, or NULL. */
static const char *passes_on(const struct message *m, const struct end *end)
{
    const krb5_int32 numbered = KRB5_AUTH_CONTEXT_DO_SEQUENCE | KRB5_AUTH_CONTEXT_RET_SEQUENCE;
    if ((end->flags & numbered) == 0)
        return "no_number";             /* each message of krbrelay has one */
    if (!end->has_local)
        return "no_local_address";      /* MIT answers KRB5_LOCAL_ADDR_REQUIRED */
    if (lacks_replay(m, end))
        return "no_replay_data";        /* MIT answers KRB5_RC_REQUIRED */
    if (has_replay_cache(end))
        return "replay_cache";
    if (m->call == MK_PRIV && !is_first_state(end->cipher_state))
        return "chained_cipher_state";
    return m->in->length > KRBRELAY_USER_DATA_LIMIT ? "long_user_data" : NULL;
}

/* The confounder is not asked for where the message has none. */
static krb5_error_code draw(krb5_context ctx, enum call call, uint8_t confounder[16])
{
    krb5_data random = { KV5M_DATA, 16, (char *)confounder };
    memset(confounder, 0, 16);
    return call == MK_PRIV ? krb5_c_random_make_octets(ctx, &random) : 0;
}

static enum krbrelay_answer seal(struct message *m, const struct end *end,
                                 const struct krbrelay_moment *at, const uint8_t confounder[16])
{
    struct krbrelay_session session = KRBRELAY_INIT;
    struct kept *kept;
    enum krbrelay_answer answer;
    size_t room = krbrelay_frame_size(m->in->length), size = 0;
    session.mode = mode_of(m->call);
    session.first = end->number;
    session.sender = end->local;
    if (end->has_remote) {
        session.has_receiver = 1;
        session.receiver = end->remote;
    }
    m->out->data = malloc(room);
    kept = m->out->data != NULL ? kept_take(m->ac) : NULL;
    if (kept == NULL)
        return KRBRELAY_MEMORY;
    answer = kept_sealer(kept, end->key, &session);
    if (answer == KRBRELAY_OK)
        answer = krbrelay_sealer_seal(&kept->sealer, (const uint8_t *)m->in->data, m->in->length,
                                      at, confounder, (uint8_t *)m->out->data, room, &size);
    kept_put(kept);
    m->out->length = (unsigned)size;
    return answer;
}

/* What MIT's call leaves: of the replay data what is asked for, and the next number. */
static void leave(struct message *m, const struct end *end, const struct krbrelay_moment *at)
{
    if ((end->flags & KRB5_AUTH_CONTEXT_RET_TIME) != 0) {
        m->replay->timestamp = (krb5_timestamp)at->seconds;
        m->replay->usec = (krb5_int32)at->microseconds;
    }
    if ((end->flags & KRB5_AUTH_CONTEXT_RET_SEQUENCE) != 0)
        m->replay->seq = end->number;
    set_number(m->ac, SENDING, end->number + 1);
}

static void discard(krb5_data *out)
{
    free(out->data);
    memset(out, 0, sizeof *out);
    out->magic = KV5M_DATA;
}

const char *make_message(struct message *m, struct end *end)
{
    struct krbrelay_moment at = { 0 };
    uint8_t confounder[16], state[CIPHER_STATE_SIZE];
    krb5_timestamp seconds;
    krb5_int32 microseconds;
    enum krbrelay_answer answer;
    const char *reason = passes_on(m, end);
    int chains = m->call == MK_PRIV && end->cipher_state != NULL;
    if (reason != NULL)
        return reason;
    memset(m->out, 0, sizeof *m->out);
    m->out->magic = KV5M_DATA;
    m->error = krb5_us_timeofday(m->ctx, &seconds, &microseconds);
    if (m->error == 0)
        m->error = draw(m->ctx, m->call, confounder);
    if (m->error != 0)
        return NULL;
    at.seconds = (uint32_t)seconds;     /* MIT's times are unsigned, and end in 2106 */
    at.microseconds = (uint32_t)microseconds;
    answer = seal(m, end, &at, confounder);
    if (answer == KRBRELAY_OK && chains &&
        !read_next_state((const uint8_t *)m->out->data, m->out->length, state))
        answer = KRBRELAY_MALFORMED;
    if (answer != KRBRELAY_OK) {
        discard(m->out);
        m->error = refuse(m, answer);
        return NULL;
    }
    if (chains)
        memcpy(end->cipher_state, state, sizeof state);
    leave(m, end, &at);
    return NULL;
}
