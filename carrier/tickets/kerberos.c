#include "clock.h"
#include "kerberos_inside.h"
#include "log.h"

#include <stdlib.h>

int kerberos_report(const struct kerberos *k, const char *event, krb5_error_code code)
{
    const char *text = krb5_get_error_message(k->context, code);
    log_fact(LEVEL_WARNING, event, field_number("code", (uint64_t)(uint32_t)code),
             field_text("text", text));
    krb5_free_error_message(k->context, text);
    return -1;
}

int kerberos_set_clock(const struct kerberos *k)
{
    struct krbrelay_moment now = read_clock();
    krb5_error_code code = krb5_set_real_time(k->context, (krb5_timestamp)now.seconds,
                                              (krb5_int32)now.microseconds);
    return code == 0 ? 0 : kerberos_report(k, "clock_unset", code);
}

struct kerberos *kerberos_open(const struct kerberos_options *options, const char *principal)
{
    struct kerberos *k = calloc(1, sizeof *k);
    krb5_error_code code;
    if (k == NULL) {
        log_system("out_of_memory", "kerberos");
        return NULL;
    }
    k->options = options;
    code = krb5_init_context(&k->context);
    if (code != 0)
        log_fact(LEVEL_ERROR, "kerberos_unopened", field_number("code", (uint64_t)(uint32_t)code),
                 field_text("text", "is krb5.conf there, and can it be read?"));
    if (code == 0 && (code = krb5_kt_resolve(k->context, options->keytab, &k->keytab)) != 0)
        (void)kerberos_report(k, "keytab_unopened", code); /* -1, as for each fault */
    if (code == 0 && (code = krb5_parse_name(k->context, principal, &k->self)) != 0)
        (void)kerberos_report(k, "principal_malformed", code); /* -1, as for each fault */
    if (code == 0)
        return k;
    kerberos_close(k);
    return NULL;
}

void kerberos_close(struct kerberos *k)
{
    if (k->context != NULL) {
        krb5_free_principal(k->context, k->self);
        if (k->keytab != NULL)
            (void)krb5_kt_close(k->context, k->keytab); /* it was only read */
        krb5_free_context(k->context);
    }
    free(k);
}
