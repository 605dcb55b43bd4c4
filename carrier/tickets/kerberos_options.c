/* The options of sessions that begin by tickets. */
#include "carrier.h"
#include "kerberos.h"
#include "option_words.h"

void kerberos_check_options(const char *program, const struct kerberos_options *o,
                            const char *name, const char *value)
{
    int count = (o->keytab != NULL) + (o->service != NULL) + (value != NULL);
    if (count != 0 && count != 3)
        end_with(2, "%s: --keytab, --service and %s: name all\n", program, name);
}

unsigned kerberos_shard(const struct kerberos_options *options, const char *stream)
{
    uint32_t hash = UINT32_C(2166136261); /* FNV-1a */
    for (; *stream != 0; stream++)
        hash = (hash ^ (uint8_t)*stream) * UINT32_C(16777619);
    return hash % options->shards;
}
