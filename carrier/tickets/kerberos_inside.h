/* What kerberos.h has, for the files that call MIT's library. */
#ifndef KERBEROS_INSIDE_H
#define KERBEROS_INSIDE_H

#include "kerberos.h"

#include <krb5.h>

struct kerberos {
    const struct kerberos_options *options;
    krb5_context context;
    krb5_keytab keytab;
    krb5_principal self;
};

/* Logs what a call of the library answered, and answers -1. */
int kerberos_report(const struct kerberos *kerberos, const char *event, krb5_error_code code);

/* The library's clock is this program's. */
int kerberos_set_clock(const struct kerberos *kerberos);

#endif
