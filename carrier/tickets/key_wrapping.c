#include "key_wrapping.h"
#include "kerberos_inside.h"
#include "log.h"

#include <string.h>

/* A key of the keytab: the newest if kvno is 0. The caller frees it. */
static int find_key(struct kerberos *k, uint32_t kvno, int32_t etype, krb5_keytab_entry *entry)
{
    krb5_error_code code = krb5_kt_get_entry(k->context, k->keytab, k->self, kvno, etype, entry);
    return code == 0 ? 0 : kerberos_report(k, "keytab_without_key", code);
}

static void free_key(struct kerberos *k, krb5_keytab_entry *entry)
{
    (void)krb5_free_keytab_entry_contents(k->context, entry); /* always 0 */
}

/* Under this key. */
static krb5_error_code wrap(struct kerberos *k, const krb5_keyblock *under, int usage,
                            krb5_data *text, struct wrapped *to)
{
    size_t size = 0;
    krb5_enc_data cipher = { .magic = KV5M_ENC_DATA };
    krb5_error_code code = krb5_c_encrypt_length(k->context, under->enctype, text->length, &size);
    if (code != 0)
        return code;
    if (size > sizeof to->bytes)
        return KRB5_CRYPTO_INTERNAL;
    cipher.ciphertext = (krb5_data){ KV5M_DATA, (unsigned)size, (char *)to->bytes };
    code = krb5_c_encrypt(k->context, under, usage, NULL, text, &cipher);
    to->len = cipher.ciphertext.length;
    return code;
}

int key_wrap(struct kerberos *k, int usage, const char *about, const uint8_t *key, size_t len,
                 struct wrapped *to)
{
    char text[KEY_WRAPPING_ABOUT + SESSION_KEY];
    size_t size = strlen(about) + 1;
    krb5_keytab_entry entry;
    krb5_data all;
    krb5_error_code code;
    if (size > KEY_WRAPPING_ABOUT || len > SESSION_KEY || find_key(k, 0, 0, &entry) != 0)
        return -1;
    memcpy(text, about, size);
    memcpy(text + size, key, len);
    all = (krb5_data){ KV5M_DATA, (unsigned)(size + len), text };
    code = wrap(k, &entry.key, usage, &all, to);
    explicit_bzero(text, sizeof text);
    to->kvno = entry.vno;
    to->etype = entry.key.enctype;
    free_key(k, &entry);
    return code == 0 ? 0 : kerberos_report(k, "key_unwrapped", code);
}

/* What is wrapped has to begin with this, and the key is the rest. */
static int take_key(const char *text, size_t size, const char *about, uint8_t key[SESSION_KEY],
                    size_t *len)
{
    size_t said = strlen(about) + 1;
    if (size < said || size - said > SESSION_KEY || memcmp(text, about, said) != 0) {
        log_fact(LEVEL_ERROR, "key_of_another_row", field_text("text",
                 "a row has a key that wasn't wrapped for it: was the database changed?"));
        return -1;
    }
    *len = size - said;
    memcpy(key, text + said, *len);
    return 0;
}

int key_unwrap(struct kerberos *k, int usage, const char *about, const struct wrapped *from,
                 uint8_t key[SESSION_KEY], size_t *len)
{
    char text[KEY_WRAPPING_BYTES];
    krb5_keytab_entry entry;
    krb5_enc_data cipher = { .magic = KV5M_ENC_DATA, .enctype = from->etype };
    krb5_data all = { KV5M_DATA, sizeof text, text };
    krb5_error_code code;
    int answer;
    if (find_key(k, from->kvno, from->etype, &entry) != 0)
        return -1;
    cipher.ciphertext = (krb5_data){ KV5M_DATA, (unsigned)from->len, (char *)from->bytes };
    code = krb5_c_decrypt(k->context, &entry.key, usage, NULL, &cipher, &all);
    answer = code == 0 ? take_key(text, all.length, about, key, len)
                       : kerberos_report(k, "key_unread", code);
    explicit_bzero(text, sizeof text);
    free_key(k, &entry);
    return answer;
}

int key_newest(struct kerberos *k, uint32_t *kvno)
{
    krb5_keytab_entry entry;
    if (find_key(k, 0, 0, &entry) != 0)
        return -1;
    *kvno = entry.vno;
    free_key(k, &entry);
    return 0;
}
