#include "tickets.h"
#include "clock.h"
#include "signals.h"
#include "kerberos_inside.h"
#include "locks.h"
#include "log.h"
#include "waiting.h"

#include <stdlib.h>
#include <string.h>

enum { LOOK = 1000, SHORTEST = 1, LONGEST = 60 }; /* milliseconds, and seconds between tries */

struct tickets {
    struct kerberos *kerberos; /* the thread's */
    pthread_t thread;
    struct waiting waiting;    /* where it waits */
    pthread_mutex_t lock;      /* of what follows */
    krb5_creds *creds;         /* NULL: there is none */
    int have_tried, is_left;
};

/* ---- The thread */

/* A ticket for the service by the keytab: first the realm's, then the service's. */
static krb5_error_code get(struct kerberos *k, krb5_creds **creds)
{
    krb5_creds first = { 0 }, wanted = { 0 };
    krb5_ccache cache = NULL;
    krb5_error_code code = krb5_get_init_creds_keytab(k->context, &first, k->self, k->keytab, 0,
                                                      NULL, NULL);
    if (code == 0)
        code = krb5_cc_new_unique(k->context, "MEMORY", NULL, &cache);
    if (code == 0)
        code = krb5_cc_initialize(k->context, cache, k->self);
    if (code == 0)
        code = krb5_cc_store_cred(k->context, cache, &first);
    if (code == 0)
        code = krb5_parse_name(k->context, k->options->service, &wanted.server);
    if (code == 0) {
        wanted.client = k->self;
        code = krb5_get_credentials(k->context, 0, cache, &wanted, creds);
    }
    krb5_free_principal(k->context, wanted.server);
    krb5_free_cred_contents(k->context, &first);
    if (cache != NULL)
        (void)krb5_cc_destroy(k->context, cache); /* it is memory */
    return code;
}

static uint64_t seconds_now(void)
{
    return read_clock().seconds;
}

static uint64_t end_of(const krb5_creds *creds)
{
    return (uint32_t)creds->times.endtime;
}

/* Takes a ticket in the place of the one that there was. */
static void take_ticket(struct tickets *t, krb5_creds *creds)
{
    krb5_creds *before;
    take_lock(&t->lock);
    before = t->creds;
    t->creds = creds;
    t->have_tried = 1;
    give_lock(&t->lock);
    krb5_free_creds(t->kerberos->context, before); /* which overwrites its key */
    log_fact(LEVEL_INFO, "ticket_got", field_text("service", t->kerberos->options->service),
             field_number("ends", end_of(creds)));
}

static void note_tried(struct tickets *t)
{
    take_lock(&t->lock);
    t->have_tried = 1;
    give_lock(&t->lock);
}

static int is_left(struct tickets *t)
{
    int answer;
    take_lock(&t->lock);
    answer = t->is_left;
    give_lock(&t->lock);
    return answer || is_ending();
}

/* Asks once, and says in how many seconds to ask again. */
static uint64_t ask_ticket(struct tickets *t, uint64_t *pause)
{
    krb5_creds *creds = NULL;
    krb5_error_code code = get(t->kerberos, &creds);
    uint64_t now = seconds_now(), end;
    if (code != 0) {
        (void)kerberos_report(t->kerberos, "ticket_missing", code); /* -1, as for each fault */
        note_tried(t);
        *pause = 2 * *pause < LONGEST ? 2 * *pause : LONGEST;
        return *pause;
    }
    end = end_of(creds);
    take_ticket(t, creds);
    *pause = SHORTEST;
    return end > now + 2 * SHORTEST ? (end - now) / 2 : SHORTEST;
}

/* Whether there was a ticket that has ended, as after a sleep, or where the clock was set. */
static int has_ended(struct tickets *t)
{
    int answer;
    take_lock(&t->lock);
    answer = t->creds != NULL && end_of(t->creds) <= seconds_now();
    give_lock(&t->lock);
    return answer;
}

static void *renew_tickets(void *given)
{
    struct tickets *t = given;
    uint64_t pause = SHORTEST, next = 0, asked = 0;
    while (!is_left(t)) {
        uint64_t now = nanoseconds();
        int is_due = now >= next || (has_ended(t) && now - asked >= SHORTEST * UINT64_C(1000000000));
        if (is_due) {
            asked = now;
            next = ask_ticket(t, &pause) * UINT64_C(1000000000) + nanoseconds();
        }
        (void)waiting_until(&t->waiting, milliseconds() + LOOK); /* for the end alone */
    }
    return NULL;
}

/* ---- Its owner */

struct tickets *tickets_open(const struct kerberos_options *options)
{
    struct tickets *t = calloc(1, sizeof *t);
    if (t == NULL) {
        log_system("out_of_memory", "tickets");
        return NULL;
    }
    waiting_begin(&t->waiting, 0);
    t->kerberos = kerberos_open(options, options->client);
    if (t->kerberos != NULL && pthread_mutex_init(&t->lock, NULL) == 0
        && pthread_create(&t->thread, NULL, renew_tickets, t) == 0)
        return t;
    log_system("thread_unstarted", "tickets");
    if (t->kerberos != NULL)
        kerberos_close(t->kerberos);
    waiting_end(&t->waiting);
    free(t);
    return NULL;
}

int tickets_have(struct tickets *t)
{
    int answer;
    take_lock(&t->lock);
    answer = t->creds != NULL && end_of(t->creds) > seconds_now();
    give_lock(&t->lock);
    return answer;
}

int tickets_have_tried(struct tickets *t)
{
    int answer;
    take_lock(&t->lock);
    answer = t->have_tried;
    give_lock(&t->lock);
    return answer;
}

/* The AP-REQ, whose subkey is the session's key; the caller frees it. */
static krb5_error_code make(struct kerberos *k, krb5_creds *creds, const struct opened *it,
                            char *text, krb5_data *request)
{
    krb5_auth_context auth = NULL;
    krb5_keyblock key = { KV5M_KEYBLOCK, it->etype, (unsigned)it->key_len, (uint8_t *)it->key };
    krb5_data covered = { KV5M_DATA, (unsigned)strlen(text), text };
    krb5_error_code code = krb5_auth_con_init(k->context, &auth);
    if (code == 0)
        code = krb5_auth_con_setflags(k->context, auth, KRB5_AUTH_CONTEXT_DO_SEQUENCE);
    if (code == 0)
        code = krb5_auth_con_setsendsubkey(k->context, auth, &key);
    if (code == 0)
        code = krb5_mk_req_extended(k->context, &auth, AP_OPTS_USE_SUBKEY, &covered, creds, request);
    if (auth != NULL)
        (void)krb5_auth_con_free(k->context, auth); /* always 0 */
    return code;
}

int tickets_make_opening(struct tickets *t, struct kerberos *k, const struct opened *it,
                         uint8_t *frame, size_t room, size_t *len)
{
    char text[OPENING_TEXT];
    krb5_data request = { 0 };
    krb5_error_code code;
    size_t size;
    opening_text(it, text);
    if (kerberos_set_clock(k) != 0)
        return -1;
    take_lock(&t->lock);
    code = t->creds != NULL ? make(k, t->creds, it, text, &request) : KRB5_CC_NOTFOUND;
    give_lock(&t->lock);
    if (code != 0)
        return kerberos_report(k, "opening_unmade", code);
    size = strlen(text);
    *len = request.length + size;
    if (*len <= room) {
        memcpy(frame, request.data, request.length);
        memcpy(frame + request.length, text, size);
    }
    krb5_free_data_contents(k->context, &request);
    return *len <= room ? 0 : kerberos_report(k, "opening_unmade", KRB5_BAD_MSIZE);
}

void tickets_close(struct tickets *t)
{
    take_lock(&t->lock);
    t->is_left = 1;
    give_lock(&t->lock);
    waiting_wake(&t->waiting);
    if (pthread_join(t->thread, NULL) != 0)
        log_system("thread_unjoined", "tickets");
    waiting_end(&t->waiting);
    krb5_free_creds(t->kerberos->context, t->creds);
    kerberos_close(t->kerberos);
    free(t);
}
