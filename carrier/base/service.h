/* What a supervisor and an operator see of a program.
 *
 * Parts of the program say that they are alive, and whether they do their work. While each was
 * alive within ten seconds, systemd's watchdog is kept quiet, if the program was built with
 * libsystemd and started by systemd. While each did its work within ten seconds, GET /healthz
 * answers 200, else 503. GET /metrics gives numbers as Prometheus reads them: of each part, in its
 * order, those that aren't NAN. Nothing of a text or a key is among them. */
#ifndef SERVICE_H
#define SERVICE_H

#include <stddef.h>

/* A kind of number: the same name may stand several times, one after the other, with other labels.
 * The buckets of a histogram, NAME_bucket, are of this type; after them come NAME_sum and
 * NAME_count, of the type NULL. */
struct metric { const char *name, *type, *help, *label; };

enum { SERVICE_METRICS = 64, SERVICE_NAMES = 32 };

/* Of the program krbrelay-PROGRAM. So many parts at most, of which none is expected. `sessions`, if
 * it isn't NULL, is the kind of number that is 1 for each session that a part names. 0, or -1 if
 * there is no memory. */
int service_begin(const char *program, const struct metric *metrics, unsigned count,
                  const struct metric *sessions, unsigned parts);

/* Ends the program with status 2 and a message unless --metrics is ADDRESS:PORT, or NULL. */
void service_check_option(const char *program, const char *where);

/* Listens at ADDRESS:PORT. 0, or -1 with a report. */
int service_listen(const char *where);

/* A part is expected to be alive from now on; it isn't any more. */
void service_expect(unsigned part);
void service_leave(unsigned part);

/* Part `part`, which belongs to the caller and is expected from then on, is alive, does its work or
 * not, and has these labels and numbers. */
void service_alive(unsigned part, int does_work, const char *labels, const double *values);

/* It begins something that may take so long: it counts as alive until then, or until it says so again. */
void service_allow(unsigned part, unsigned seconds);

/* It names these sessions, of which the first SERVICE_NAMES are kept. */
void service_name(unsigned part, const char *const *names, size_t count);

/* To the supervisor: all has begun; so it is still (each second); it ends. */
void service_tell_ready(void);
void service_tell_alive(void);
void service_tell_end(void);

void service_end(void);

#endif
