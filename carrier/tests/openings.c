/* openings KIND KEYTAB CLIENT SERVICE ETYPE STREAM SHARD [BEFORE [HISTORY]]: makes an opening of a session
 * (opening.h), of a version before if SHARD is '-', or one that isn't right, as its kind says, and prints its name and
 * the frame in hexadecimal:
 *     good        as it has to be
 *     no-subkey   without a subkey
 *     no-text     without a checksum of the text
 *     other-text  with a checksum of another text
 *     other-name  under a name that isn't the key's
 *     gss         the AP-REQ of a GSS token, and the text */
#include "check.h"
#include "opening.h"
#include "text.h"
#include "option_words.h"

#include <gssapi/gssapi.h>
#include <gssapi/gssapi_krb5.h>
#include <krb5.h>
#include <string.h>

static krb5_context context;

static void must(krb5_error_code code, const char *what)
{
    if (code != 0)
        printf("%s\n", krb5_get_error_message(context, code));
    check(code == 0, what);
}

/* The ticket, of a cache in memory that GSS uses too. */
static krb5_creds *get_ticket(const char *keytab_name, const char *client_name,
                              const char *service_name)
{
    krb5_creds first, wanted, *creds = NULL;
    krb5_keytab keytab;
    krb5_ccache cache;
    memset(&wanted, 0, sizeof wanted);
    must(krb5_parse_name(context, client_name, &wanted.client), "client");
    must(krb5_parse_name(context, service_name, &wanted.server), "service");
    must(krb5_kt_resolve(context, keytab_name, &keytab), "keytab");
    must(krb5_get_init_creds_keytab(context, &first, wanted.client, keytab, 0, NULL, NULL),
         "first ticket");
    must(krb5_cc_default(context, &cache), "cache");
    must(krb5_cc_initialize(context, cache, wanted.client), "cache");
    must(krb5_cc_store_cred(context, cache, &first), "cache");
    must(krb5_get_credentials(context, 0, cache, &wanted, &creds), "ticket");
    return creds;
}

/* An AP-REQ with this subkey and this text under its checksum, unless they are NULL. */
static krb5_data make(krb5_creds *creds, krb5_keyblock *key, const char *text)
{
    krb5_auth_context auth;
    krb5_data covered = { KV5M_DATA, text != NULL ? (unsigned)strlen(text) : 0, (char *)text };
    krb5_data request;
    must(krb5_auth_con_init(context, &auth), "auth");
    must(krb5_auth_con_setflags(context, auth, KRB5_AUTH_CONTEXT_DO_SEQUENCE), "flags");
    if (key != NULL)
        must(krb5_auth_con_setsendsubkey(context, auth, key), "subkey");
    must(krb5_mk_req_extended(context, &auth, key != NULL ? AP_OPTS_USE_SUBKEY : 0,
                              text != NULL ? &covered : NULL, creds, &request), "request");
    return request;
}

/* The AP-REQ in a GSS token for the same service. */
static krb5_data make_gss(char *service)
{
    gss_buffer_desc name = { strlen(service), service }, token = { 0, NULL };
    gss_OID_desc kind = { 10, "\x2a\x86\x48\x86\xf7\x12\x01\x02\x02\x01" };
    gss_ctx_id_t gss = GSS_C_NO_CONTEXT;
    gss_name_t target;
    OM_uint32 minor;
    size_t i;
    check(gss_import_name(&minor, &name, &kind, &target) == GSS_S_COMPLETE, "GSS name");
    check(!GSS_ERROR(gss_init_sec_context(&minor, GSS_C_NO_CREDENTIAL, &gss, target,
                                          GSS_C_NO_OID, GSS_C_MUTUAL_FLAG, 0, NULL, NULL, NULL,
                                          &token, NULL, NULL)), "GSS token");
    for (i = 2; i < token.length; i++)
        if (memcmp((char *)token.value + i - 2, "\x01\x00\x6e", 3) == 0)
            return (krb5_data){ KV5M_DATA, (unsigned)(token.length - i), (char *)token.value + i };
    check(0, "GSS token without an AP-REQ");
    return (krb5_data){ 0 };
}

static krb5_data request_of(const char *kind, krb5_creds *creds, krb5_keyblock *key,
                            const char *text, char *service)
{
    if (strcmp(kind, "gss") == 0)
        return make_gss(service);
    if (strcmp(kind, "no-subkey") == 0)
        return make(creds, NULL, text);
    if (strcmp(kind, "no-text") == 0)
        return make(creds, key, NULL);
    return make(creds, key, strcmp(kind, "other-text") == 0 ? "krbrelay" : text);
}

/* A session as it has to be, but for its etype or its name, as `kind` says. */
static void draw(const char *kind, int etype, krb5_keyblock *key, struct opened *it)
{
    struct kerberos_options options = { .keytab = "FILE:none", .etype = etype };
    struct kerberos *kerberos = kerberos_open(&options, "none@NONE");
    check(kerberos != NULL, "context");
    options.etype = etype == 17 || etype == 18 ? etype : 18;
    check(opening_draw(kerberos, it) == 0, "session");
    kerberos_close(kerberos);
    if (strcmp(kind, "other-name") == 0)
        memcpy(it->name, "AAAAAAAAAAAAAAAAAAAAAA", 23);
    if (etype != 17 && etype != 18) {
        must(krb5_c_make_random_key(context, etype, key), "key");
        return;
    }
    *key = (krb5_keyblock){ KV5M_KEYBLOCK, etype, (unsigned)it->key_len, it->key };
}

/* What the words after ETYPE say. */
static void read_said(struct opened *it, int count, char **words)
{
    uint64_t shard = 0;
    it->says_shard = strcmp(words[1], "-") != 0;
    check(copy_text(it->stream, sizeof it->stream, words[0]), "stream");
    check(!it->says_shard || read_number(words[1], 0, CARRIER_SHARDS - 1, &shard), "shard");
    check(copy_text(it->before, sizeof it->before, count > 2 ? words[2] : ""), "before");
    history_read(&it->closed, count > 3 ? words[3] : "");
    it->shard = (unsigned)shard;
}

int main(int count, char **words)
{
    struct opened it = { .name = "" };
    char text[OPENING_TEXT], *digits;
    krb5_keyblock key;
    krb5_creds *creds;
    krb5_data request;
    check(count >= 8, "KIND KEYTAB CLIENT SERVICE ETYPE STREAM SHARD [BEFORE [HISTORY]]");
    must(krb5_init_context(&context), "context");
    creds = get_ticket(words[2], words[3], words[4]);
    draw(words[1], atoi(words[5]), &key, &it);
    read_said(&it, count - 6, words + 6);
    opening_text(&it, text);
    request = request_of(words[1], creds, &key, text, words[4]);
    digits = malloc(2 * (size_t)request.length + 1);
    check(digits != NULL, "memory");
    write_hex((const uint8_t *)request.data, request.length, digits);
    printf("%s %s", it.name, digits);
    write_hex((const uint8_t *)text, strlen(text), digits);
    puts(digits);
    return 0;
}
