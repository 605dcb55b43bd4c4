#include "service.h"
#include "carrier.h"
#include "clock.h"
#include "locks.h"
#include "log.h"
#include "text.h"
#include "option_words.h"

#include <krbrelay.h>
#include <math.h>
#include <stdio.h>
#include <stdlib.h>
#include <string.h>

#ifdef WITH_METRICS
#include <microhttpd.h>
#include <netdb.h>
#endif
#ifdef WITH_SYSTEMD
#include <systemd/sd-daemon.h>
#endif

#define HEARD UINT64_C(10000000000) /* nanoseconds */

struct part {
    int is_expected;
    uint64_t alive, working; /* when it last said so, or 0 */
    uint64_t allowed;        /* up to this moment it counts as alive */
    char labels[64];
    double values[SERVICE_METRICS];
    char names[SERVICE_NAMES][CARRIER_NAME];
    size_t name_count;
};

static struct {
    pthread_mutex_t lock;
    const char *program;
    const struct metric *metrics, *sessions;
    unsigned count, part_count; /* parts: up to the last that was expected */
    struct part *parts;
    void *server;
} service = { .lock = PTHREAD_MUTEX_INITIALIZER };

int service_begin(const char *program, const struct metric *metrics, unsigned count,
                  const struct metric *sessions, unsigned parts)
{
    service.program = program;
    service.metrics = metrics;
    service.count = count < SERVICE_METRICS ? count : SERVICE_METRICS;
    service.sessions = sessions;
    service.parts = calloc(parts, sizeof *service.parts);
    return service.parts != NULL ? 0 : -1;
}

/* Under the lock. */
static struct part *expect(unsigned part)
{
    if (service.part_count <= part)
        service.part_count = part + 1;
    service.parts[part].is_expected = 1;
    return &service.parts[part];
}

void service_expect(unsigned part)
{
    take_lock(&service.lock);
    (void)expect(part); /* the part: nothing more is said of it */
    give_lock(&service.lock);
}

void service_leave(unsigned part)
{
    take_lock(&service.lock);
    service.parts[part] = (struct part){ 0 };
    give_lock(&service.lock);
}

void service_alive(unsigned part, int does_work, const char *labels, const double *values)
{
    struct part *it;
    take_lock(&service.lock);
    it = expect(part);
    it->alive = nanoseconds();
    it->allowed = 0;
    if (does_work)
        it->working = it->alive;
    write_whole(it->labels, sizeof it->labels, "%s", labels);
    memcpy(it->values, values, service.count * sizeof *values);
    give_lock(&service.lock);
}

void service_allow(unsigned part, unsigned seconds)
{
    take_lock(&service.lock);
    expect(part)->allowed = nanoseconds() + seconds * UINT64_C(1000000000);
    give_lock(&service.lock);
}

void service_name(unsigned part, const char *const *names, size_t count)
{
    struct part *it = &service.parts[part];
    size_t i;
    take_lock(&service.lock);
    it->name_count = count < SERVICE_NAMES ? count : SERVICE_NAMES;
    for (i = 0; i < it->name_count; i++)
        write_whole(it->names[i], sizeof it->names[i], "%s", names[i]);
    give_lock(&service.lock);
}

static int is_recent(uint64_t moment)
{
    return moment != 0 && nanoseconds() - moment < HEARD;
}

/* Whether all parts are alive, and whether all work. */
static void ask_all(int *are_alive, int *do_work)
{
    unsigned i;
    *are_alive = *do_work = 1;
    take_lock(&service.lock);
    for (i = 0; i < service.part_count; i++) {
        *are_alive &= !service.parts[i].is_expected || is_recent(service.parts[i].alive)
                      || nanoseconds() < service.parts[i].allowed;
        *do_work &= !service.parts[i].is_expected || is_recent(service.parts[i].working);
    }
    give_lock(&service.lock);
}

/* ---- To the supervisor */

static void tell(const char *state)
{
#ifdef WITH_SYSTEMD
    if (sd_notify(0, state) < 0)
        log_fact(LEVEL_WARNING, "supervisor_unreached", field_text("told", state));
#else
    (void)state;
#endif
}

void service_tell_ready(void)
{
    tell("READY=1");
}

void service_tell_alive(void)
{
    int are_alive, do_work;
    ask_all(&are_alive, &do_work);
    if (are_alive)
        tell("WATCHDOG=1");
}

void service_tell_end(void)
{
    tell("STOPPING=1");
}

/* ---- To the operator */

#ifdef WITH_METRICS
/* tables/metrics.toml: metrics, by tools/tables */
#define BUILD_INFO "krbrelay_%s_build_info"
#define BUILD_INFO_IS "gauge", "1, of a program of this version, over this version of libkrbrelay, that was built with these"
/* end of metrics */

static void print_head(FILE *page, const struct metric *it)
{
    int is_histogram = strcmp(it->type, "histogram") == 0;
    int len = (int)(strlen(it->name) - (is_histogram ? strlen("_bucket") : 0));
    /* print_all asks whether all was written. */
    (void)fprintf(page, "# HELP %.*s %s\n# TYPE %.*s %s\n", len, it->name, it->help, len, it->name,
                  it->type);
}

/* Which program it is, as Prometheus's users look for it. */
static void print_build(FILE *page)
{
    static const char with[] = ""
#ifdef WITH_NATS
        " nats"
#endif
#ifdef WITH_POSTGRESQL
        " postgresql"
#endif
#ifdef WITH_SYSTEMD
        " systemd"
#endif
        ;
    const uint32_t library = krbrelay_version();
    char name[64];
    write_whole(name, sizeof name, BUILD_INFO, service.program);
    print_head(page, &(const struct metric){ name, BUILD_INFO_IS, NULL });
    (void)fprintf(page, "%s{version=\"%d.%d.%d\",library=\"%u.%u.%u\",with=\"sqlite%s\"} 1\n", name,
                  KRBRELAY_VERSION_MAJOR, KRBRELAY_VERSION_MINOR, KRBRELAY_VERSION_PATCH,
                  library >> 16, library >> 8 & 0xff, library & 0xff,
                  with); /* as in print_head */
}

static void print_metric(FILE *page, unsigned metric)
{
    const struct metric *it = &service.metrics[metric];
    unsigned i;
    if (it->type != NULL
        && (metric == 0 || strcmp(it->name, service.metrics[metric - 1].name) != 0))
        print_head(page, it);
    for (i = 0; i < service.part_count; i++) {
        const struct part *part = &service.parts[i];
        const char *comma = *part->labels != 0 && it->label != NULL ? "," : "";
        if (part->alive != 0 && !isnan(part->values[metric]))
            (void)fprintf(page, "%s{%s%s%s} %.17g\n", it->name, part->labels, comma,
                          it->label != NULL ? it->label : "",
                          part->values[metric]); /* as in print_head */
    }
}

static void print_sessions(FILE *page)
{
    unsigned i;
    size_t name;
    print_head(page, service.sessions);
    for (i = 0; i < service.part_count; i++)
        for (name = 0; name < service.parts[i].name_count; name++)
            (void)fprintf(page, "%s{%s,session=\"%s\"} 1\n", service.sessions->name,
                          service.parts[i].labels,
                          service.parts[i].names[name]); /* as in print_head */
}

/* All numbers; the caller frees the text. */
static char *print_all(size_t *size)
{
    char *text = NULL;
    FILE *page = open_memstream(&text, size);
    unsigned i;
    int is_whole;
    if (page == NULL)
        return NULL;
    take_lock(&service.lock);
    print_build(page);
    for (i = 0; i < service.count; i++)
        print_metric(page, i);
    if (service.sessions != NULL)
        print_sessions(page);
    give_lock(&service.lock);
    is_whole = !ferror(page);
    if (fclose(page) == 0 && is_whole)
        return text;
    free(text);
    return NULL;
}

static enum MHD_Result give(struct MHD_Connection *connection, unsigned status, char *text,
                            size_t size)
{
    struct MHD_Response *response =
        MHD_create_response_from_buffer(size, text, MHD_RESPMEM_MUST_COPY);
    enum MHD_Result answer = MHD_NO;
    if (response == NULL)
        return MHD_NO;
    if (MHD_add_response_header(response, "Content-Type", "text/plain; version=0.0.4") == MHD_YES)
        answer = MHD_queue_response(connection, status, response);
    MHD_destroy_response(response);
    return answer;
}

static enum MHD_Result give_health(struct MHD_Connection *connection)
{
    static char fine[] = "all parts work\n", idle[] = "a part doesn't work\n";
    int are_alive, do_work;
    ask_all(&are_alive, &do_work);
    return do_work ? give(connection, MHD_HTTP_OK, fine, sizeof fine - 1)
                   : give(connection, MHD_HTTP_SERVICE_UNAVAILABLE, idle, sizeof idle - 1);
}

static enum MHD_Result answer(void *given, struct MHD_Connection *connection, const char *path,
                              const char *method, const char *version, const char *data,
                              size_t *size, void **state)
{
    static char other[] = "/metrics, /healthz\n";
    char *text;
    size_t len = 0;
    enum MHD_Result done;
    (void)given;
    (void)version;
    (void)data;
    (void)size;
    (void)state;
    if (strcmp(method, "GET") != 0)
        return give(connection, MHD_HTTP_METHOD_NOT_ALLOWED, other, sizeof other - 1);
    if (strcmp(path, "/healthz") == 0)
        return give_health(connection);
    if (strcmp(path, "/metrics") != 0)
        return give(connection, MHD_HTTP_NOT_FOUND, other, sizeof other - 1);
    text = print_all(&len);
    if (text == NULL)
        return MHD_NO;
    done = give(connection, MHD_HTTP_OK, text, len);
    free(text);
    return done;
}

/* The address and the port of ADDRESS:PORT, or NULL. */
static struct addrinfo *address_of(const char *where)
{
    const struct addrinfo hints = { .ai_flags = AI_NUMERICHOST | AI_NUMERICSERV | AI_PASSIVE,
                                    .ai_socktype = SOCK_STREAM };
    char address[64];
    const char *port = strrchr(where, ':');
    struct addrinfo *found = NULL;
    int is_long = *where == '[' && port != NULL && port > where + 1 && port[-1] == ']';
    if (port == NULL || (size_t)(port - where) >= sizeof address)
        return NULL;
    write_whole(address, sizeof address, "%.*s", (int)(port - where) - 2 * is_long,
                where + is_long);
    return getaddrinfo(address, port + 1, &hints, &found) == 0 ? found : NULL;
}

void service_check_option(const char *program, const char *where)
{
    struct addrinfo *found = where != NULL ? address_of(where) : NULL;
    if (where != NULL && found == NULL)
        end_with(2, "%s: --metrics '%s': name ADDRESS:PORT, such as 127.0.0.1:9464\n", program, where);
    if (found != NULL)
        freeaddrinfo(found);
}

int service_listen(const char *where)
{
    struct addrinfo *found = address_of(where);
    unsigned flags = MHD_USE_INTERNAL_POLLING_THREAD;
    if (found != NULL) {
        if (found->ai_family == AF_INET6)
            flags |= MHD_USE_IPv6;
        service.server = MHD_start_daemon(flags, 0, NULL, NULL, answer, NULL, MHD_OPTION_SOCK_ADDR,
                                          found->ai_addr, MHD_OPTION_CONNECTION_LIMIT, 16u,
                                          MHD_OPTION_CONNECTION_TIMEOUT, 5u, MHD_OPTION_END);
        freeaddrinfo(found);
    }
    if (service.server != NULL)
        return 0;
    log_fact(LEVEL_ERROR, "metrics_unopened", field_text("metrics", where), field_text("text",
             "name ADDRESS:PORT at which nothing listens, such as 127.0.0.1:9464"));
    return -1;
}

void service_end(void)
{
    if (service.server != NULL)
        MHD_stop_daemon(service.server);
    free(service.parts);
}
#else
void service_check_option(const char *program, const char *where)
{
    if (where != NULL)
        end_with(2, "%s: --metrics: this program was built without it: install libmicrohttpd-dev, and run make\n",
                 program);
}

int service_listen(const char *where)
{
    (void)where;
    return -1; /* never: service_check_option has ended the program */
}

void service_end(void)
{
    free(service.parts);
}
#endif
