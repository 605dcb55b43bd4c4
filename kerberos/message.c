#include "message.h"

#include <errno.h>

enum krbrelay_mode mode_of(enum call call)
{
    return call == MK_SAFE || call == RD_SAFE ? KRBRELAY_SAFE : KRBRELAY_PRIV;
}

enum direction way_of(enum call call)
{
    return call == MK_SAFE || call == MK_PRIV ? SENDING : RECEIVING;
}

krb5_error_code refuse(struct message *m, enum krbrelay_answer answer)
{
    size_t size = 0;
    m->refusal = "UNKNOWN";
    if (krbrelay_answer_name(answer, m->name, sizeof m->name, &size) == KRBRELAY_OK)
        m->refusal = m->name;
    if (answer == KRBRELAY_ETYPE_NOSUPP)
        return KRB5_BAD_ENCTYPE;            /* MIT's own number for it, and */
    if (answer == KRBRELAY_BADVERSION)
        return KRB5KDC_ERR_BAD_PVNO;        /* for this; else RFC 4120's */
    if (answer >= KRBRELAY_ETYPE_NOSUPP && answer <= KRBRELAY_FIELD_TOOLONG)
        return ERROR_TABLE_BASE_krb5 + (krb5_error_code)answer;
    if (answer == KRBRELAY_MALFORMED)
        return ASN1_PARSE_ERROR;
    return answer == KRBRELAY_MEMORY ? ENOMEM : EINVAL;
}

int lacks_replay(const struct message *m, const struct end *end)
{
    const krb5_int32 wanted = KRB5_AUTH_CONTEXT_RET_TIME | KRB5_AUTH_CONTEXT_RET_SEQUENCE;
    return (end->flags & wanted) != 0 && m->replay == NULL;
}

int has_replay_cache(const struct end *end)
{
    return (end->flags & KRB5_AUTH_CONTEXT_DO_TIME) != 0;
}
