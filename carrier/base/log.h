/* The log: one fact a line, on standard error, of the form
 *
 *     time=2026-11-27T04:13:13.042Z level=warning event=frame_early session=tom shard=0 offset=17
 *
 * Time is UTC, level is error, warning or info, and the event says what kind of fact it is. What
 * somebody may do about it, or what a library says, is the last field, `text`. A value with
 * anything but letters, digits and ._:/@%+- is in double quotes; in it '"' and '\' have a '\'
 * before them, and what isn't printable ASCII is \xNN. No text of a session, no key and no password
 * is a value.
 *
 * Of each event five lines come at once at most, and then one a second: the next one has how many
 * were left out, as `left_out`. Any thread may call these. */
#ifndef LOG_H
#define LOG_H

#include <stdint.h>

enum level { LEVEL_ERROR, LEVEL_WARNING, LEVEL_INFO };
enum field_kind { FIELD_END, FIELD_TEXT, FIELD_NUMBER, FIELD_SECONDS };

struct field { enum field_kind kind; const char *key; const char *text; uint64_t number; };

/* Seconds are given in nanoseconds. */
#define field_text(key, text) { FIELD_TEXT, key, text, 0 }
#define field_number(key, number) { FIELD_NUMBER, key, NULL, number }
#define field_seconds(key, nanoseconds) { FIELD_SECONDS, key, NULL, nanoseconds }

/* Logs an event with its fields, one at least. Its name is a constant. */
#define log_fact(level, event, ...) \
    log_fields(level, event, (const struct field[]){ __VA_ARGS__, { FIELD_END, NULL, NULL, 0 } })
void log_fields(enum level level, const char *event, const struct field *fields);

/* The same of numbers that the caller reports once a second at most, each with what it is about:
 * all of them are logged. */
#define log_numbers(event, ...) \
    log_report(event, (const struct field[]){ __VA_ARGS__, { FIELD_END, NULL, NULL, 0 } })
void log_report(const char *event, const struct field *fields);

/* The same of a call of the system that failed, as errno says. */
void log_system(const char *event, const char *what);

/* Logs how many lines were left out and not counted by a later one. */
void log_end(void);

#endif
