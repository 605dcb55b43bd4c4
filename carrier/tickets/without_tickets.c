/* In the place of kerberos.c, opening.c, key_wrapping.c and tickets.c where MIT's library isn't
 * installed: nothing is opened, so nothing else of them is called. */
#include "key_wrapping.h"
#include "signals.h"
#include "log.h"
#include "tickets.h"

#pragma GCC diagnostic ignored "-Wunused-parameter"

static int never(void)
{
    end_at_once("this program was built without tickets");
    return -1;
}

struct kerberos *kerberos_open(const struct kerberos_options *options, const char *principal)
{
    log_fact(LEVEL_ERROR, "tickets_missing", field_text("keytab", options->keytab),
             field_text("principal", principal), field_text("text",
             "this program was built without --keytab: install libkrb5-dev, and run make"));
    return NULL;
}

void kerberos_close(struct kerberos *kerberos)
{
}

int opening_is(const uint8_t *frame, size_t len)
{
    return 0;
}

const char *opening_name(enum opening_answer answer)
{
    return "";
}

int opening_draw(struct kerberos *kerberos, struct opened *it)
{
    return never();
}

int opening_session(struct kerberos *kerberos, const struct opened *it, unsigned shard, struct session *of)
{
    return never();
}

enum opening_answer opening_take(struct kerberos *kerberos, unsigned shard, const char *name,
                                 const uint8_t *frame, size_t len, struct opened *it)
{
    return (enum opening_answer)never();
}

int key_wrap(struct kerberos *kerberos, int usage, const char *about, const uint8_t *key,
                 size_t len, struct wrapped *to)
{
    return never();
}

int key_unwrap(struct kerberos *kerberos, int usage, const char *about,
                 const struct wrapped *from, uint8_t key[SESSION_KEY], size_t *len)
{
    return never();
}

int key_newest(struct kerberos *kerberos, uint32_t *kvno)
{
    return never();
}

struct tickets *tickets_open(const struct kerberos_options *options)
{
    return NULL;
}

int tickets_have(struct tickets *tickets)
{
    return 0;
}

int tickets_have_tried(struct tickets *tickets)
{
    return 1;
}

int tickets_make_opening(struct tickets *tickets, struct kerberos *kerberos,
                         const struct opened *it, uint8_t *frame, size_t room, size_t *len)
{
    return never();
}

void tickets_close(struct tickets *tickets)
{
}
