/* The connection to NATS. */
#include "clock.h"
#include "log.h"
#include "nats_carrier.h"
#include "owner_only.h"
#include "text.h"

#include <stdio.h>
#include <stdlib.h>
#include <string.h>

enum {
    RECONNECT = 200, /* milliseconds between tries, */
    AWAY = 10000,    /* and between two lines that say why there is no connection */
    SILENT = 2000,   /* milliseconds without a server after which that is said */
    FLUSHED = 500,   /* milliseconds that what was published has to leave at the end */
    STEP = 500,      /* milliseconds by which the wall clock may be set back, and nothing is done */
    SERVERS = 16,    /* the most servers of a name */
    WHERE = 2048     /* the most bytes of their addresses */
};

enum answer nats_report(const char *what, natsStatus status)
{
    log_fact(LEVEL_WARNING, "nats_fault", field_text("of", what),
             field_text("fault", natsStatus_GetText(status)), field_text("text", "tried again"));
    return ANSWER_FAULT;
}

static int is_away(struct carrier *base)
{
    struct nats_carrier *c = (struct nats_carrier *)base;
    nats_look_around(c);
    return natsConnection_Status(c->connection) != NATS_CONN_STATUS_CONNECTED;
}

/* Says each ten seconds why there is no connection, such as that a certificate has expired. Where nothing answers at an
 * address, libnats has no error of the connection. */
static void report_away(struct nats_carrier *c)
{
    const char *detail = NULL;
    natsStatus status = natsConnection_GetLastError(c->connection, &detail);
    uint64_t now = milliseconds();
    if (natsConnection_Status(c->connection) == NATS_CONN_STATUS_CONNECTED)
        c->connected = now;
    if (now - c->connected < SILENT || now - c->told_away < AWAY)
        return;
    c->told_away = now;
    log_fact(LEVEL_WARNING, "carrier_away",
             field_text("fault", natsStatus_GetText(status == NATS_OK ? NATS_NO_SERVER : status)),
             field_text("detail", c->has_password || detail == NULL ? "" : detail),
             field_text("text", "there is no connection now: another one is tried all the time"));
}

static int is_closed(struct carrier *base)
{
    struct nats_carrier *c = (struct nats_carrier *)base;
    nats_look_around(c);
    report_away(c);
    if (c->connection == NULL || !natsConnection_IsClosed(c->connection))
        return 0;
    log_fact(LEVEL_ERROR, "carrier_closed", field_text("text", "the connection has ended for good: were"
             " the credentials refused? This program ends, and reads them when it is started again"));
    return 1;
}

/* ---- */

static void free_dropped(struct nats_carrier *c)
{
    while (c->dropped_count > 0)
        natsMsg_Destroy(c->dropped[--c->dropped_count]);
}

void nats_drop(struct nats_carrier *c, natsMsg *message)
{
    if (message == NULL)
        return;
    if (c->dropped_count == NATS_DROPPED)
        free_dropped(c);
    c->dropped[c->dropped_count++] = message;
}

void nats_leave(natsSubscription **it)
{
    natsSubscription_Destroy(*it); /* or nothing */
    *it = NULL;
}

/* Ends the connection once what was published has left. It would wait for what subscriptions that end still had to send. */
static void end_connection(struct nats_carrier *c)
{
    nats_leave(&c->reader); /* what was fetched stays held */
    if (c->words != NULL)
        nats_let_all_leave(c, FLUSHED); /* a broker that is away loses it */
    natsConnection_Destroy(c->connection);
    c->connection = NULL;
    nats_leave(&c->words);
    nats_leave(&c->replies);
    nats_leave(&c->answers);
    nats_leave(&c->receipts);
}

static void close_carrier(struct carrier *base)
{
    struct nats_carrier *c = (struct nats_carrier *)base;
    nats_stop_reading(c);
    end_connection(c);
    free_dropped(c);
    nats_end_events(c);
    natsInbox_Destroy(c->inbox);
    natsOptions_Destroy(c->options);
    free(c);
}

/* The addresses one after the other, "nats://A,nats://B", as the library wants them. */
static natsStatus set_servers(natsOptions *options, const char *where)
{
    char text[WHERE], *servers[SERVERS], *rest = NULL, *place;
    int count = 0;
    if ((size_t)snprintf(text, sizeof text, "%s", where) >= sizeof text)
        return NATS_INVALID_ARG;
    for (place = strtok_r(text, ",", &rest); place != NULL; place = strtok_r(NULL, ",", &rest)) {
        if (count == SERVERS)
            return NATS_INVALID_ARG;
        servers[count++] = place;
    }
    return natsOptions_SetServers(options, (const char **)servers, count);
}

/* Who this is: USER PASSWORD, or what NATS's own tools write. */
static natsStatus set_credentials(natsOptions *options, const char *path)
{
    size_t size;
    struct stat is;
    char *text = owner_only_read(path, &size, &is), *user, *password, *rest = NULL;
    natsStatus status = NATS_INVALID_ARG;
    if (text == NULL)
        return NATS_IO_ERROR;
    if (strncmp(text, "-----BEGIN", 10) == 0) {
        status = natsOptions_SetUserCredentialsFromFiles(options, path, NULL);
    } else {
        user = strtok_r(text, " \t\r\n", &rest);
        password = strtok_r(NULL, " \t\r\n", &rest);
        if (user != NULL && password != NULL && strtok_r(NULL, " \t\r\n", &rest) == NULL)
            status = natsOptions_SetUserInfo(options, user, password);
    }
    owner_only_forget(text, size);
    return status;
}

static int is_secure(const struct carrier_options *given)
{
    return given->tls_ca != NULL || given->tls_cert != NULL || strncmp(given->where, "tls://", 6) == 0;
}

static natsStatus set_tls(natsOptions *options, const struct carrier_options *given)
{
    natsStatus status = NATS_OK;
    if (is_secure(given))
        status = natsOptions_SetSecure(options, true);
    if (status == NATS_OK && given->tls_ca != NULL)
        status = natsOptions_LoadCATrustedCertificates(options, given->tls_ca);
    if (status == NATS_OK && given->tls_cert != NULL)
        status = natsOptions_LoadCertificatesChain(options, given->tls_cert, given->tls_key);
    if (status == NATS_OK && given->tls_name != NULL)
        status = natsOptions_SetExpectedHostname(options, given->tls_name);
    return status;
}

/* What has to be right before any server is asked; a fault is logged. */
static natsStatus set_options(natsOptions *options, const struct carrier_options *given)
{
    const char *what = "--carrier";
    natsStatus status = set_servers(options, given->where);
    if (status == NATS_OK && given->credentials != NULL) {
        what = "--credentials";
        status = set_credentials(options, given->credentials);
    }
    if (status == NATS_OK) {
        what = "--tls-ca, --tls-cert, --tls-key";
        status = set_tls(options, given);
    }
    if (status != NATS_OK)
        log_fact(LEVEL_ERROR, "option_unusable", field_text("option", what),
                 field_text("fault", natsStatus_GetText(status)));
    return status;
}

static int64_t wall_clock_ahead(void)
{
    const struct krbrelay_moment now = read_clock();
    return (int64_t)(now.seconds * 1000 + now.microseconds / 1000) - (int64_t)milliseconds();
}

natsStatus nats_hear(struct nats_carrier *c, const char *word, natsSubscription **subscription)
{
    char subject[NATS_SUBJECT];
    write_whole(subject, sizeof subject, "%s.%s", (const char *)c->inbox, word);
    return natsConnection_SubscribeSync(subscription, c->connection, subject);
}

/* Connects, and hears what comes to the inbox. */
static natsStatus connect_to(struct nats_carrier *c)
{
    natsStatus status;
    c->sockets = 0;
    c->read = milliseconds();
    status = natsConnection_Connect(&c->connection, c->options);
    c->ahead = wall_clock_ahead();
    if (status == NATS_OK || status == NATS_NOT_YET_CONNECTED)
        status = nats_hear(c, "*.*.*.*", &c->answers);
    if (status == NATS_OK)
        status = natsSubscription_SetPendingLimits(c->answers, -1, -1);
    return status == NATS_OK ? nats_hear(c, "word", &c->words) : status;
}

static natsStatus begin_connection(struct nats_carrier *c)
{
    natsStatus status = natsOptions_SetMaxReconnect(c->options, -1);
    if (status == NATS_OK)
        status = natsOptions_SetReconnectWait(c->options, RECONNECT);
    if (status == NATS_OK)
        status = nats_begin_events(c);
    if (status == NATS_OK)
        status = natsInbox_Create(&c->inbox);
    return status == NATS_OK ? connect_to(c) : status;
}

/* Called on a thread of the library. */
static void note_connected(natsConnection *connection, void *given)
{
    (void)connection;
    (void)given;
}

/* Another connection, which isn't waited for. */
static natsStatus connect_anew(struct nats_carrier *c)
{
    const int hears_receipts = c->receipts != NULL || c->has_read_kept;
    natsStatus status = natsOptions_SetRetryOnFailedConnect(c->options, true, note_connected, c);
    end_connection(c);
    if (status == NATS_OK)
        status = connect_to(c);
    return status == NATS_OK && hears_receipts ? nats_hear_receipts(c) : status;
}

static void look_at_clock(struct nats_carrier *c)
{
    int64_t ahead = wall_clock_ahead(), before = c->ahead;
    natsStatus status;
    c->ahead = ahead;
    if (ahead >= before - STEP)
        return;
    status = connect_anew(c);
    log_fact(LEVEL_WARNING, "clock_set_back", field_number("milliseconds", (uint64_t)(before - ahead)),
             field_text("connection", natsStatus_GetText(status)),
             field_text("text", "another connection is begun, since the one before may wait for as long"));
}

void nats_look_around(struct nats_carrier *c)
{
    look_at_clock(c);
    if (nats_is_lost(c))
        (void)connect_anew(c); /* one that isn't there yet is reported as away */
}

/* How many servers a name has: it may have passwords, which aren't printed. */
static int count_of(const char *where)
{
    int count = 1;
    for (; *where != 0; where++)
        count += *where == ',';
    return count;
}

static const char *what_to_do(natsStatus status)
{
    switch (status) {
    case NATS_SSL_ERROR:
    case NATS_SECURE_CONNECTION_REQUIRED:
    case NATS_SECURE_CONNECTION_WANTED:
        return "a server answers, and TLS fails: is its certificate one of --tls-ca, with the name of --tls-name, and"
               " not expired? Does it ask for one, as --tls-cert?";
    case NATS_CONNECTION_AUTH_FAILED:
        return "a server answers, and doesn't know this user: look at --credentials";
    default:
        return "no server answers: start nats-server with JetStream there (carrier/cluster starts three), or name"
               " another --carrier";
    }
}

static void report_unopened(const char *where, int has_password, natsStatus status)
{
    const char *detail = nats_GetLastError(NULL); /* such as that a certificate has expired */
    log_fact(LEVEL_ERROR, "carrier_unopened", field_number("servers", (uint64_t)count_of(where)),
             field_text("carrier", has_password ? "" : where), field_text("fault", natsStatus_GetText(status)),
             field_text("detail", has_password || detail == NULL ? "" : detail), field_text("text", what_to_do(status)));
}

struct carrier *nats_carrier_open(const struct carrier_options *options)
{
    struct nats_carrier *c = calloc(1, sizeof *c);
    natsStatus status;
    if (c == NULL)
        return NULL;
    c->base = (struct carrier){ nats_find_list, nats_make, nats_publish, nats_confirmed, nats_seek, nats_fetch,
                                nats_behind, nats_acknowledge, nats_receipts, nats_forget, is_away, is_closed, close_carrier,
                                nats_due, NULL, -1 };
    c->is_secure = is_secure(options);
    c->replicas = options->replicas;
    c->has_password = strchr(options->where, '@') != NULL;
    status = natsOptions_Create(&c->options);
    if (status == NATS_OK && set_options(c->options, options) == NATS_OK) {
        status = begin_connection(c);
        if (status == NATS_OK)
            return &c->base;
        report_unopened(options->where, c->has_password, status);
    }
    close_carrier(&c->base);
    return NULL;
}
