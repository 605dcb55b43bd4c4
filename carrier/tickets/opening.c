#include "opening.h"
#include "kerberos_inside.h"
#include "log.h"
#include "owner_only.h"
#include "sessions.h"
#include "text.h"
#include "option_words.h"

#include <errno.h>
#include <string.h>

enum { AP_REQ = 0x6e, NAME_BYTES = 16 };

static const char begin[] = "krbrelay session "; /* and the form: 1, 2 or 3 */

#define OPENING_NAME_OF(name) "OPENING_" #name,

const char *opening_name(enum opening_answer answer)
{
    static const char *const names[] = { "OPENED", OPENING_REASONS(OPENING_NAME_OF) };
    return names[answer];
}

int opening_is(const uint8_t *frame, size_t len)
{
    return len > 0 && frame[0] == AP_REQ;
}

/* ---- Names */

/* 128 bits as 22 letters, digits, '-' and '_', six bits each. */
static void write_name(const uint8_t bytes[NAME_BYTES], char name[CARRIER_NAME])
{
    static const char letters[] = "ABCDEFGHIJKLMNOPQRSTUVWXYZabcdefghijklmnopqrstuvwxyz0123456789-_";
    unsigned bit, count = 0;
    for (bit = 0; bit < 8 * NAME_BYTES; bit += 6) {
        unsigned place = bit / 8, two = bytes[place] * 256u;
        if (place + 1 < NAME_BYTES)
            two += bytes[place + 1];
        name[count++] = letters[two >> (10 - bit % 8) & 63];
    }
    name[count] = 0;
}

/* The name that follows from a key. */
static krb5_error_code name_of(struct kerberos *k, const krb5_keyblock *key, char name[CARRIER_NAME])
{
    char label[] = "krbrelay session name";
    uint8_t bytes[NAME_BYTES];
    krb5_data in = { KV5M_DATA, sizeof label - 1, label };
    krb5_data out = { KV5M_DATA, sizeof bytes, (char *)bytes };
    krb5_error_code code = krb5_c_prf(k->context, key, &in, &out); /* 16 bytes for 17 and 18 */
    if (code == 0)
        write_name(bytes, name);
    return code;
}

int opening_draw(struct kerberos *k, struct opened *it)
{
    krb5_keyblock key = { 0 };
    krb5_error_code code = krb5_c_make_random_key(k->context, k->options->etype, &key);
    if (code == 0 && key.length <= sizeof it->key)
        code = name_of(k, &key, it->name);
    if (code == 0) {
        it->etype = key.enctype;
        it->key_len = key.length;
        memcpy(it->key, key.contents, key.length);
    }
    krb5_free_keyblock_contents(k->context, &key); /* which overwrites it */
    return code == 0 ? 0 : kerberos_report(k, "key_undrawn", code);
}

/* The key of the way back, which follows from the session's key. */
static int derive_back(struct kerberos *k, const struct opened *it, uint8_t back[SESSION_KEY])
{
    char label[] = "krbrelay receipts";
    krb5_data in = { KV5M_DATA, sizeof label - 1, label };
    krb5_keyblock key = { KV5M_KEYBLOCK, it->etype, (unsigned)it->key_len, (uint8_t *)it->key };
    krb5_keyblock *derived = NULL;
    krb5_error_code code = krb5_c_derive_prfplus(k->context, &key, &in, it->etype, &derived);
    if (code == 0 && derived->length != it->key_len)
        code = KRB5_CRYPTO_INTERNAL;
    if (code == 0)
        memcpy(back, derived->contents, derived->length);
    krb5_free_keyblock(k->context, derived);
    return code == 0 ? 0 : kerberos_report(k, "key_underived", code);
}

/* The two ends of such a session have RFC 4120's directional addresses. */
static struct krbrelay_address end_of(uint8_t which)
{
    return (struct krbrelay_address){ .kind = KRBRELAY_DIRECTIONAL, .len = 4, .bytes = { 0, 0, 0, which } };
}

int opening_session(struct kerberos *k, const struct opened *it, unsigned shard, struct session *of)
{
    *of = (struct session){ .shard = shard, .etype = it->etype, .mode = KRBRELAY_PRIV, .key_len = it->key_len,
                            .first = 1, .has_opening = 1, .has_back = 1, .from = end_of(0), .to = end_of(1) };
    memcpy(of->name, it->name, sizeof of->name);
    memcpy(of->key, it->key, it->key_len);
    return derive_back(k, it, of->back);
}

/* ---- The text */

/* The form of a text: those before the third don't say the shard. */
static char form_of(const struct opened *it, int has_history)
{
    if (it->says_shard)
        return '3';
    return has_history ? '2' : '1';
}

void opening_text(const struct opened *it, char text[OPENING_TEXT])
{
    char history[HISTORY_TEXT], shard[16] = "";
    int has_history = it->before[0] != 0 && it->closed.is_known;
    history_write(&it->closed, history);
    if (it->says_shard)
        write_whole(shard, sizeof shard, " %u", it->shard);
    write_whole(text, OPENING_TEXT, "%s%c %s %s %s%s%s%s", begin, form_of(it, has_history), it->name, it->stream,
                it->before[0] != 0 ? it->before : "-", shard, has_history ? " " : "", has_history ? history : "");
}

/* Copies a word up to a space or the end, and moves past it: 1, or 0 if it is no name. */
static int read_word(const char **at, char name[CARRIER_NAME])
{
    size_t len = strcspn(*at, " ");
    if (len == 0 || len >= CARRIER_NAME)
        return 0;
    memcpy(name, *at, len);
    name[len] = 0;
    *at += len + ((*at)[len] == ' ');
    return sessions_may_have(name);
}

/* The same of a shard, of the third form: any number below the last one. */
static int read_shard(const char **at, struct opened *it)
{
    char word[CARRIER_NAME];
    uint64_t shard;
    if (!read_word(at, word) || !read_number(word, 0, CARRIER_SHARDS - 1, &shard))
        return 0;
    it->shard = (unsigned)shard;
    it->says_shard = 1;
    return 1;
}

/* A text is of that form if the same is written of what it says. */
static int read_text(const uint8_t *bytes, size_t len, struct opened *it)
{
    char text[OPENING_TEXT], again[OPENING_TEXT];
    const char *at = text + sizeof begin + 1; /* after the form and a space */
    if (len >= sizeof text || len < sizeof begin + 1 || memcmp(bytes, begin, sizeof begin - 1) != 0)
        return 0;
    memcpy(text, bytes, len);
    text[len] = 0;
    if (!read_word(&at, it->name) || !read_word(&at, it->stream) || !read_word(&at, it->before))
        return 0;
    if (strcmp(it->before, "-") == 0)
        it->before[0] = 0;
    if (text[sizeof begin - 1] == '3' && !read_shard(&at, it))
        return 0;
    history_read(&it->closed, at);
    opening_text(it, again);
    return strlen(again) == len && memcmp(again, bytes, len) == 0;
}

/* How many bytes the AP-REQ has, by its DER length; 0 if it has no such length. */
static size_t size_of(const uint8_t *frame, size_t len)
{
    size_t bytes, size = 0, i;
    if (len < 2 || !opening_is(frame, len))
        return 0;
    if (frame[1] < 0x80)
        return 2u + frame[1] <= len ? 2u + frame[1] : 0;
    bytes = frame[1] & 0x7fu;
    if (bytes == 0 || bytes > 3 || len < 2 + bytes)
        return 0;
    for (i = 0; i < bytes; i++)
        size = size * 256 + frame[2 + i];
    return size <= len - 2 - bytes ? 2 + bytes + size : 0;
}

/* ---- Clients that are allowed: a line each of a file */

static int is_line(struct kerberos *k, char *line, krb5_const_principal client)
{
    krb5_principal allowed = NULL;
    int is_same;
    line[strcspn(line, " \t\r")] = 0;
    if (*line == 0 || *line == '#' || krb5_parse_name(k->context, line, &allowed) != 0)
        return 0;
    is_same = krb5_principal_compare(k->context, allowed, client) != 0;
    krb5_free_principal(k->context, allowed);
    return is_same;
}

static int is_allowed(struct kerberos *k, krb5_const_principal client)
{
    struct stat is;
    size_t size = 0;
    char *text = owner_only_read(k->options->allowed, &size, &is), *rest = NULL, *line;
    int is_found = 0;
    if (text == NULL)
        return 0;
    for (line = strtok_r(text, "\n", &rest); line != NULL && !is_found;
         line = strtok_r(NULL, "\n", &rest))
        is_found = is_line(k, line, client);
    owner_only_forget(text, size);
    return is_found;
}

/* ---- An opening */

/* What the library's answer to an AP-REQ is. */
static enum opening_answer answer_of(krb5_error_code code)
{
    switch (code) {
    case KRB5KRB_AP_ERR_SKEW: return OPENING_SKEW;
    case KRB5KRB_AP_ERR_TKT_EXPIRED:
    case KRB5KRB_AP_ERR_TKT_NYV: return OPENING_EXPIRED;
    case KRB5_KT_NOTFOUND:
    case KRB5_KT_KVNONOTFOUND:
    case KRB5KRB_AP_ERR_NOKEY:
    case KRB5KRB_AP_ERR_BADKEYVER:
    case KRB5KRB_AP_ERR_NOT_US:
    case KRB5KRB_AP_WRONG_PRINC:
    case ENOENT: return OPENING_NO_KEY;
    case KRB5KRB_AP_ERR_BAD_INTEGRITY:
    case KRB5KRB_AP_ERR_MODIFIED:
    case KRB5KRB_AP_ERR_BADMATCH:
    case KRB5_BAD_MSIZE: return OPENING_CHANGED;
    case KRB5KRB_AP_ERR_MSG_TYPE:
    case ASN1_BAD_ID:
    case ASN1_OVERRUN:
    case ASN1_BAD_LENGTH:
    case ASN1_MISSING_FIELD: return OPENING_MALFORMED;
    case ENOMEM: return OPENING_FAULT;
    default: return OPENING_OTHER;
    }
}

/* Whether the authenticator's checksum covers the text, under the ticket's session key. */
static enum opening_answer check_text(struct kerberos *k, krb5_auth_context auth,
                                      const uint8_t *text, size_t len)
{
    krb5_authenticator *told = NULL;
    krb5_keyblock *key = NULL;
    krb5_data all = { KV5M_DATA, (unsigned)len, (char *)text };
    krb5_boolean is_valid = 0;
    krb5_error_code code = krb5_auth_con_getauthenticator(k->context, auth, &told);
    if (code == 0)
        code = krb5_auth_con_getkey(k->context, auth, &key);
    if (code == 0 && told->checksum != NULL && krb5_c_is_keyed_cksum(told->checksum->checksum_type))
        code = krb5_c_verify_checksum(k->context, key, KRB5_KEYUSAGE_AP_REQ_AUTH_CKSUM, &all,
                                      told->checksum, &is_valid);
    krb5_free_authenticator(k->context, told);
    krb5_free_keyblock(k->context, key);
    if (code == ENOMEM)
        return OPENING_FAULT;
    return code == 0 && is_valid ? OPENING_OK : OPENING_CHANGED;
}

/* The session's key, whose name has to be the session's. */
static enum opening_answer take_key(struct kerberos *k, krb5_auth_context auth, struct opened *it)
{
    char name[CARRIER_NAME];
    krb5_keyblock *key = NULL;
    enum opening_answer answer = OPENING_OK;
    if (krb5_auth_con_getrecvsubkey(k->context, auth, &key) != 0)
        return OPENING_FAULT;
    if (key == NULL)
        return OPENING_NO_SUBKEY;
    if (key->enctype != 17 && key->enctype != 18)
        answer = OPENING_ETYPE;
    else if (key->length > sizeof it->key || name_of(k, key, name) != 0)
        answer = OPENING_FAULT;
    else if (strcmp(name, it->name) != 0)
        answer = OPENING_NAME;
    if (answer == OPENING_OK) {
        it->etype = key->enctype;
        it->key_len = key->length;
        memcpy(it->key, key->contents, key->length);
    }
    krb5_free_keyblock(k->context, key);
    return answer;
}

/* Who began it, and until when the ticket is good. */
static enum opening_answer take_client(struct kerberos *k, const krb5_ticket *ticket,
                                       struct opened *it)
{
    const krb5_enc_tkt_part *part = ticket->enc_part2;
    char *name = NULL;
    int has_room;
    it->ends = (uint32_t)part->times.endtime;
    if (krb5_unparse_name(k->context, part->client, &name) != 0)
        return OPENING_FAULT;
    has_room = copy_text(it->client, sizeof it->client, name);
    krb5_free_unparsed_name(k->context, name);
    return has_room && is_allowed(k, part->client) ? OPENING_OK : OPENING_CLIENT;
}

/* Takes the AP-REQ, whose text was read. */
static enum opening_answer take_request(struct kerberos *k, krb5_auth_context *auth,
                                        const uint8_t *frame, size_t size, size_t len,
                                        struct opened *it)
{
    krb5_data request = { KV5M_DATA, (unsigned)size, (char *)frame };
    krb5_ticket *ticket = NULL;
    enum opening_answer answer;
    krb5_error_code code = krb5_auth_con_setflags(k->context, *auth,
                                                  KRB5_AUTH_CONTEXT_DO_SEQUENCE);
    if (code != 0)
        return OPENING_FAULT;
    code = krb5_rd_req(k->context, auth, &request, k->self, k->keytab, NULL, &ticket);
    if (code != 0)
        return answer_of(code);
    answer = check_text(k, *auth, frame + size, len - size);
    if (answer == OPENING_OK)
        answer = take_key(k, *auth, it);
    if (answer == OPENING_OK)
        answer = take_client(k, ticket, it);
    krb5_free_ticket(k->context, ticket);
    return answer;
}

enum opening_answer opening_take(struct kerberos *k, unsigned shard, const char *name,
                                 const uint8_t *frame, size_t len, struct opened *it)
{
    size_t size = len <= OPENING ? size_of(frame, len) : 0;
    krb5_auth_context auth = NULL;
    enum opening_answer answer;
    memset(it, 0, sizeof *it);
    if (size == 0 || !read_text(frame + size, len - size, it))
        return OPENING_MALFORMED;
    if (strcmp(it->name, name) != 0)
        return OPENING_NAME;
    if (it->says_shard && it->shard != shard)
        return OPENING_ELSEWHERE;
    it->shard = shard;
    if (kerberos_set_clock(k) != 0 || krb5_auth_con_init(k->context, &auth) != 0)
        return OPENING_FAULT;
    answer = take_request(k, &auth, frame, size, len, it);
    (void)krb5_auth_con_free(k->context, auth); /* always 0 */
    return answer;
}
