/* The keys of sessions in a database: wrapped (krb5_c_encrypt) under the newest key that the
 * program's principal has in its keytab. What a row says of the session is wrapped with its key, so
 * that no key serves under another row. Under each usage one kind of program wraps. */
#ifndef KEY_WRAPPING_H
#define KEY_WRAPPING_H

#include "kerberos.h"

enum { KEY_WRAPPING_SENDER = 1024, KEY_WRAPPING_RECEIVER = 1025 }; /* key usages of applications */
enum { KEY_WRAPPING_ABOUT = 512, KEY_WRAPPING_BYTES = 640 }; /* what a row says, and all that is wrapped */

struct wrapped { uint32_t kvno; int32_t etype; size_t len; uint8_t bytes[KEY_WRAPPING_BYTES]; };

/* Wraps a key, with what is said about it. 0, or -1 with a report: as without the keytab. */
int key_wrap(struct kerberos *kerberos, int usage, const char *about, const uint8_t *key,
                 size_t len, struct wrapped *to);

/* Reads it, if that was said about it. The caller overwrites the key. */
int key_unwrap(struct kerberos *kerberos, int usage, const char *about,
                 const struct wrapped *from, uint8_t key[SESSION_KEY], size_t *len);

/* The number of the newest key. 0, or -1 with a report. */
int key_newest(struct kerberos *kerberos, uint32_t *kvno);

#endif
