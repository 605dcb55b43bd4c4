/* What the programs say: their log (--wrap), and the port service.h. */
#include "log.h"
#include "ports.h"
#include "service.h"

#include <stdlib.h>
#include <string.h>

/* Seconds after a fault of the carrier, for which it may be said to be away; pauses grow while it is, up to 64 s. */
enum { PATIENCE = 30, LONG_PATIENCE = 70 };

struct seen seen;
static unsigned place_of_waiting, place_of_bound;

int has_been_faulty(void)
{
    return now - faults.carrier_at <= (has(KIND_SILENT) || has(KIND_CARRIER) ? LONG_PATIENCE : PATIENCE) * SECOND;
}

/* A line names the refused session, unless it says that all of them stand. */
static int names_refused(enum level level, const struct field *fields)
{
    const struct field *it;
    if (poisons.count == 0 || level == LEVEL_INFO || is_sender(running))
        return 0;
    for (it = fields; it->kind != FIELD_END; it++)
        if (it->kind == FIELD_TEXT && strcmp(it->key, "session") == 0 && name_of(it->text) == poisons.at[0].name)
            return 1;
    return 0;
}

WRAPPED(void, log_fields, enum level level, const char *event, const struct field *fields)
{
    uint64_t before = moment();
    seen.nothing_confirmed += strcmp(event, "nothing_confirmed") == 0 && !has_been_faulty();
    seen.refused += (unsigned long)names_refused(level, fields);
    if (getenv("SIMULATION_LOG") == NULL)
        return;
    __real_log_fields(level, event, fields);
    spend(before - moment()); /* what it prints takes no time, so that the run stays the same */
}

WRAPPED(void, log_report, const char *event, const struct field *fields)
{
    uint64_t before = moment();
    if (getenv("SIMULATION_LOG") == NULL)
        return;
    __real_log_report(event, fields);
    spend(before - moment());
}

/* ---- service.h */

int service_begin(const char *program, const struct metric *metrics, unsigned count,
                  const struct metric *sessions, unsigned parts)
{
    unsigned i;
    for (i = 0; i < count && is_sender(running); i++) {
        if (strcmp(metrics[i].name, "krbrelay_sender_waiting_texts") == 0)
            place_of_waiting = i;
        if (strcmp(metrics[i].name, "krbrelay_sender_waiting_texts_limit") == 0)
            place_of_bound = i;
    }
    return 0;
}

/* Part 0 of a sender is its own. */
void service_alive(unsigned part, int does_work, const char *labels, const double *values)
{
    if (running != SENDER || part != 0)
        return;
    if (does_work || has_been_faulty())
        seen.worked_at = now;
    seen.waiting = values[place_of_waiting];
    seen.bound = values[place_of_bound];
}

int service_listen(const char *where)
{
    return 0;
}

void service_allow(unsigned part, unsigned seconds) { }
void service_expect(unsigned part) { }
void service_leave(unsigned part) { }
void service_name(unsigned part, const char *const *names, size_t count) { }
void service_tell_ready(void) { }
void service_tell_alive(void) { }
void service_tell_end(void) { }
void service_end(void) { }
