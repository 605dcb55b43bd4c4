/* keys OUTBOX KEYTAB PRINCIPAL NAME..: prints the keys of these sessions, whose rows an outbox has,
 * in hexadecimal. */
#include "check.h"
#include "outbox.h"
#include "text.h"

#include <krb5.h>

int main(int count, char **words)
{
    struct kerberos_options options = { .shards = 1 };
    struct kerberos *kerberos;
    struct outbox outbox;
    int i;
    check(count > 4, "OUTBOX KEYTAB PRINCIPAL NAME..");
    options.keytab = words[2];
    kerberos = kerberos_open(&options, words[3]);
    check(kerberos != NULL && outbox_open(&outbox, words[1]) == ANSWER_DONE, "outbox and keytab");
    for (i = 4; i < count; i++) {
        struct begun it;
        char digits[2 * SESSION_KEY + 1];
        check(outbox_find_begun(&outbox, kerberos, words[i], &it) == ANSWER_FOUND, "a session");
        write_hex(it.opened.key, it.opened.key_len, digits);
        puts(digits);
    }
    outbox_close(&outbox);
    kerberos_close(kerberos);
    return 0;
}
