#include "log.h"
#include "clock.h"
#include "locks.h"
#include "text.h"

#include <errno.h>
#include <stdio.h>
#include <string.h>
#include <time.h>

enum { KINDS = 64, BURST = 5, LINE = 2048, TEXT = 500 };

#define PAUSE UINT64_C(1000000000) /* nanoseconds until one more line of an event may come */

/* An event: how many lines it may have now, since when, and how many were left out. */
struct kind { const char *event; unsigned may; uint64_t since; unsigned long left_out; };

static struct { pthread_mutex_t lock; struct kind kinds[KINDS]; unsigned count; }
    lines = { .lock = PTHREAD_MUTEX_INITIALIZER };

/* A line that is written: what there is no room for is left out. */
struct line { char text[LINE]; size_t len; };

static void add_words(struct line *line, const char *text)
{
    size_t room = sizeof line->text - 2 - line->len, len = strlen(text); /* a quote, and the end */
    if (len > room)
        len = room;
    memcpy(line->text + line->len, text, len);
    line->len += len;
}

static void add_byte(struct line *line, unsigned char byte)
{
    char text[8] = { (char)byte };
    if (byte == '"' || byte == '\\')
        write_whole(text, sizeof text, "\\%c", byte);
    else if (byte < ' ' || byte > '~')
        write_whole(text, sizeof text, "\\x%02x", byte);
    add_words(line, text);
}

/* Ends of lines at the end, as libraries have them, aren't a part of it. */
static size_t length_of(const char *text)
{
    size_t len = strnlen(text, TEXT);
    while (len > 0 && (text[len - 1] == '\n' || text[len - 1] == '\r'))
        len--;
    return len;
}

static void add_text(struct line *line, const char *text)
{
    static const char plain[] = "abcdefghijklmnopqrstuvwxyzABCDEFGHIJKLMNOPQRSTUVWXYZ0123456789"
                                "._:/@%+-";
    size_t i, len = length_of(text);
    int is_quoted = len == 0 || strspn(text, plain) < len;
    if (is_quoted)
        add_words(line, "\"");
    for (i = 0; i < len; i++)
        add_byte(line, (unsigned char)text[i]);
    if (is_quoted)
        add_words(line, "\"");
}

static void add_field(struct line *line, const struct field *it)
{
    char digits[32];
    add_words(line, " ");
    add_words(line, it->key);
    add_words(line, "=");
    if (it->kind == FIELD_TEXT) {
        add_text(line, it->text != NULL ? it->text : "");
        return;
    }
    if (it->kind == FIELD_SECONDS)
        write_whole(digits, sizeof digits, "%.3f", (double)it->number / 1e9);
    else
        write_whole(digits, sizeof digits, "%llu", (unsigned long long)it->number);
    add_words(line, digits);
}

static void add_head(struct line *line, enum level level, const char *event)
{
    static const char *const levels[] = { "error", "warning", "info" };
    const struct krbrelay_moment now = read_clock();
    const time_t seconds = (time_t)now.seconds;
    struct tm parts;
    char text[80], date[32];
    if (gmtime_r(&seconds, &parts) == NULL
        || strftime(date, sizeof date, "%Y-%m-%dT%H:%M:%S", &parts) == 0)
        date[0] = 0;
    write_whole(text, sizeof text, "time=%s.%03uZ level=%s event=", date, now.microseconds / 1000,
                levels[level]);
    add_words(line, text);
    add_words(line, event);
}

static void print(enum level level, const char *event, const struct field *fields,
                  unsigned long left_out)
{
    const struct field more = field_number("left_out", left_out);
    struct line line = { "", 0 };
    add_head(&line, level, event);
    if (left_out > 0)
        add_field(&line, &more);
    for (; fields->kind != FIELD_END; fields++)
        add_field(&line, fields);
    line.text[line.len] = '\n';
    line.text[line.len + 1] = 0;
    /* One write: a line isn't mixed with another process's. Nobody else can be told if it fails. */
    (void)fputs(line.text, stderr);
}

/* The event, which is noted when it comes first; all for which there is no room are one. */
static struct kind *kind_of(const char *event)
{
    unsigned i = 0;
    while (i < lines.count && strcmp(lines.kinds[i].event, event) != 0)
        i++;
    if (i == KINDS)
        return &lines.kinds[KINDS - 1];
    if (i == lines.count)
        lines.kinds[lines.count++] = (struct kind){ event, BURST, nanoseconds(), 0 };
    return &lines.kinds[i];
}

/* Whether a line of it may come now. */
static int is_due(struct kind *it)
{
    uint64_t now = nanoseconds(), more = (now - it->since) / PAUSE;
    it->since += more * PAUSE;
    it->may = more + it->may > BURST ? BURST : it->may + (unsigned)more;
    if (it->may == 0)
        return 0;
    if (it->may-- == BURST)
        it->since = now;
    return 1;
}

void log_fields(enum level level, const char *event, const struct field *fields)
{
    struct kind *it;
    take_lock(&lines.lock);
    it = kind_of(event);
    if (is_due(it)) {
        print(level, event, fields, it->left_out);
        it->left_out = 0;
    } else {
        it->left_out++;
    }
    give_lock(&lines.lock);
}

void log_report(const char *event, const struct field *fields)
{
    take_lock(&lines.lock);
    print(LEVEL_INFO, event, fields, 0);
    give_lock(&lines.lock);
}

void log_system(const char *event, const char *what)
{
    char text[128];
    log_fact(LEVEL_ERROR, event, field_text("of", what),
             field_text("text", strerror_r(errno, text, sizeof text)));
}

void log_end(void)
{
    unsigned i;
    take_lock(&lines.lock);
    for (i = 0; i < lines.count; i++) {
        const struct field fields[] = { field_text("of", lines.kinds[i].event),
                                        field_number("lines", lines.kinds[i].left_out),
                                        { FIELD_END, NULL, NULL, 0 } };
        if (lines.kinds[i].left_out > 0)
            print(LEVEL_INFO, "lines_left_out", fields, 0);
        lines.kinds[i].left_out = 0;
    }
    give_lock(&lines.lock);
}
