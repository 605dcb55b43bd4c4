/* An effect that is one statement of the store. Names after a colon are those of the text; each stands for the
 * same value wherever it stands. What is in quotes or a comment stays as it is, and so does a cast (::type). */
#include "effects.h"
#include "log.h"

#include <ctype.h>
#include <stdio.h>
#include <stdlib.h>
#include <string.h>

enum name { SESSION, CLIENT, STREAM, NUMBER, PART, TEXT, NAMES };
static const char *const names[NAMES] = { "session", "client", "stream", "number", "part", "text" };

/* The statement as stores have it, and which name its first, second .. value is. */
static struct {
    char *sql;
    enum name values[NAMES];
    unsigned count;
} statement;

static enum answer refuse(const char *what, const char *at)
{
    log_fact(LEVEL_ERROR, "effect_refused", field_text("at", at), field_text("text", what));
    return ANSWER_FAULT;
}

/* How long what begins here is, if it is something that is left as it is: quotes, a comment, or a cast. */
static size_t kept_len(const char *at)
{
    const char *end = NULL;
    if (*at == '\'' || *at == '"')
        end = strchr(at + 1, *at);
    else if (at[0] == '-' && at[1] == '-')
        end = strchr(at, '\n');
    else if (at[0] == '/' && at[1] == '*')
        end = strstr(at + 2, "*/");
    else if (at[0] == ':' && at[1] == ':')
        return 2;
    else
        return 0;
    if (end == NULL)
        return strlen(at);
    return (size_t)(end - at) + (*at == '/' ? 2 : 1);
}

static int name_at(const char *at, size_t len)
{
    int i;
    for (i = 0; i < NAMES; i++)
        if (strlen(names[i]) == len && strncmp(names[i], at, len) == 0)
            return i;
    return -1;
}

/* The place of a name among the values, where it is added if it is new. */
static unsigned place_of(enum name name)
{
    unsigned i;
    for (i = 0; i < statement.count; i++)
        if (statement.values[i] == name)
            return i + 1;
    statement.values[statement.count++] = name;
    return statement.count;
}

/* Writes a name's place in its stead. Answers how much of the text it was, or 0 after a report. */
static size_t write_name(char **to, const char *at)
{
    size_t len = strspn(at + 1, "abcdefghijklmnopqrstuvwxyzABCDEFGHIJKLMNOPQRSTUVWXYZ_0123456789");
    int name = name_at(at + 1, len);
    if (name < 0) {
        refuse("the names are :session, :client, :stream, :number, :part and :text", at);
        return 0;
    }
    *to += sprintf(*to, "$%u", place_of((enum name)name));
    return len + 1;
}

/* Whether nothing but space follows. */
static int is_end(const char *at)
{
    return at[strspn(at, " \t\r\n")] == 0;
}

enum answer statement_choose(const char *text)
{
    const char *at = text;
    char *to = malloc(strlen(text) + 1); /* a place is shorter than its name */
    statement.sql = to;
    if (to == NULL)
        return ANSWER_FAULT;
    while (*at != 0) {
        size_t kept = kept_len(at);
        if (kept == 0 && *at == ';' && !is_end(at + 1))
            return refuse("it is one statement: nothing may follow its ';'", at);
        if (kept == 0 && *at == '$')
            return refuse("a '$' may stand in quotes alone: values have names", at);
        if (kept == 0 && *at == ':' && (isalpha((unsigned char)at[1]) || at[1] == '_')) {
            size_t len = write_name(&to, at);
            if (len == 0)
                return ANSWER_FAULT;
            at += len;
            continue;
        }
        kept += kept == 0;
        memcpy(to, at, kept);
        to += kept;
        at += kept;
    }
    *to = 0;
    return is_end(text) ? refuse("there is no statement", text) : ANSWER_DONE;
}

static struct value value_of(enum name name, const struct arrived *it)
{
    const char *text = name == SESSION ? it->session : name == CLIENT ? it->client : it->stream;
    if (name == NUMBER || name == PART)
        return number_value(name == NUMBER ? it->number : it->part);
    return name == TEXT ? bytes_value(it->text, it->len) : text_value(text);
}

enum answer statement_take(struct store *store, const struct arrived *it, char *reason)
{
    struct value values[NAMES];
    unsigned i;
    (void)reason;
    for (i = 0; i < statement.count; i++)
        values[i] = value_of(statement.values[i], it);
    return store_run(store, statement.sql, values, statement.count) == ANSWER_DONE ? ANSWER_DONE : ANSWER_FAULT;
}
