/* Which carrier it is. */
#include "carrier.h"
#include "option_words.h"

#include <stdio.h>
#include <string.h>

static int is_sqlite(const char *where)
{
    return strncmp(where, "sqlite:", 7) == 0;
}

static int is_nats(const char *where)
{
    return strncmp(where, "nats://", 7) == 0 || strncmp(where, "tls://", 6) == 0;
}

#ifdef WITH_NATS
enum { HAS_NATS = 1 };
#else
enum { HAS_NATS = 0 };

struct carrier *nats_carrier_open(const struct carrier_options *options)
{
    (void)options;
    return NULL; /* never: carrier_check_options has ended the program */
}
#endif

void carrier_check_options(const char *program, const struct carrier_options *o)
{
    if ((o->tls_cert == NULL) != (o->tls_key == NULL))
        end_with(2, "%s: --tls-cert and --tls-key: name both\n", program);
    if (!is_sqlite(o->where) && !is_nats(o->where)) /* what follows the first ':' may be a password */
        end_with(2, "%s: --carrier '%.*s': this is no carrier: name nats://HOST:PORT or sqlite:FILE\n", program,
                 (int)strcspn(o->where, ":"), o->where);
    if (is_nats(o->where) && !HAS_NATS)
        end_with(2, "%s: --carrier: this program was built without NATS: install libnats-dev, and run make\n", program);
}

struct carrier *carrier_open(const struct carrier_options *options)
{
    return is_sqlite(options->where) ? sqlite_carrier_open(carrier_file(options)) : nats_carrier_open(options);
}

const char *carrier_file(const struct carrier_options *options)
{
    return is_sqlite(options->where) ? options->where + 7 : NULL;
}
