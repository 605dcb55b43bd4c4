#include "stored_openings.h"
#include "key_wrapping.h"
#include "log.h"
#include "text.h"
#include "option_words.h"

#include <stdlib.h>
#include <string.h>

#define COLUMNS "opened.name, opened.stream, opened.before, opened.client, opened.etype," \
                " opened.ends, opened.kvno, opened.wrapping, opened.key, opened.history, opened.shard"
enum { NAME, STREAM, BEFORE, CLIENT, ETYPE, ENDS, KVNO, WRAPPING, KEY, HISTORY, SHARD };
enum { TOGETHER = 64 }; /* rows that are wrapped anew at once */

/* What is wrapped with the key. */
static void write_about(const struct opened *it, char about[KEY_WRAPPING_ABOUT])
{
    write_whole(about, KEY_WRAPPING_ABOUT, "%s %d %s %s %s", it->name, (int)it->etype, it->stream,
                it->before[0] != 0 ? it->before : "-", it->client);
}

/* Rows that are read: so many were, and the last one's name. */
struct reading {
    struct kerberos *kerberos;
    openings_take *take;
    void *given;
    size_t rows;
    char last[CARRIER_NAME];
    struct opened it;
    struct wrapped wrapped;
};

static int read_columns(struct reading *r, const char *const *row)
{
    struct opened *it = &r->it;
    uint64_t etype, kvno, wrapping, shard;
    int is_fine = copy_text(it->name, sizeof it->name, row[NAME])
                  && copy_text(it->stream, sizeof it->stream, row[STREAM])
                  && copy_text(it->before, sizeof it->before, row[BEFORE])
                  && copy_text(it->client, sizeof it->client, row[CLIENT])
                  && read_number(row[ETYPE], 17, 18, &etype)
                  && read_number(row[ENDS], 0, UINT32_MAX, &it->ends)
                  && read_number(row[KVNO], 0, UINT32_MAX, &kvno)
                  && read_number(row[WRAPPING], 0, INT32_MAX, &wrapping)
                  && read_number(row[SHARD], 0, CARRIER_SHARDS - 1, &shard)
                  && read_hex(row[KEY], r->wrapped.bytes, sizeof r->wrapped.bytes, &r->wrapped.len);
    if (!is_fine) {
        log_fact(LEVEL_ERROR, "row_malformed", field_text("session", row[NAME]),
                 field_text("text", "a row of the table opened isn't one: was it changed?"));
        return 0;
    }
    it->etype = (int32_t)etype;
    it->shard = (unsigned)shard;
    history_read(&it->closed, row[HISTORY]);
    r->wrapped.kvno = (uint32_t)kvno;
    r->wrapped.etype = (int32_t)wrapping;
    return 1;
}

/* A row that can't be read is left out, with a report: its frames are passed by, and come again. */
static enum answer read_row(void *given, const char *const *row)
{
    struct reading *r = given;
    char about[KEY_WRAPPING_ABOUT];
    enum answer answer;
    r->rows++;
    if (!copy_text(r->last, sizeof r->last, row[NAME]) || !read_columns(r, row))
        return ANSWER_DONE;
    write_about(&r->it, about);
    if (key_unwrap(r->kerberos, KEY_WRAPPING_RECEIVER, about, &r->wrapped, r->it.key,
                     &r->it.key_len) != 0)
        return ANSWER_DONE;
    answer = r->take(r->given, &r->it);
    explicit_bzero(r->it.key, sizeof r->it.key);
    return answer;
}

enum answer openings_find(struct store *store, struct kerberos *kerberos, const char *name, openings_take *take,
                          void *given)
{
    const struct value value = text_value(name);
    struct reading r = { .kerberos = kerberos, .take = take, .given = given };
    return store->ask(store, "SELECT " COLUMNS " FROM opened WHERE name = $1", &value, 1, read_row, &r);
}

/* A session that begins, and what a row of the store makes of that. */
struct judged { const struct opened *of; enum opening_answer answer; };

static enum answer compare_row(void *given, const char *const *row)
{
    struct judged *judged = given;
    const struct opened *of = judged->of;
    if (strcmp(row[0], of->name) != 0 || strcmp(row[1], of->client) != 0
        || strcmp(row[2], of->stream) != 0 || strcmp(row[3], of->before) != 0)
        judged->answer = OPENING_FORKED;
    else if (!of->says_shard && strtoul(row[4], NULL, 10) != of->shard && judged->answer == OPENING_OK)
        judged->answer = OPENING_ELSEWHERE;
    return ANSWER_DONE;
}

enum opening_answer openings_judge(struct store *store, const struct opened *it)
{
    const struct value values[] = { text_value(it->client), text_value(it->stream), text_value(it->before),
                                    text_value(it->name) };
    struct judged judged = { it, OPENING_OK };
    enum answer answer = store->ask(store, "SELECT name, client, stream, before, shard FROM opened WHERE"
                                  " (client = $1 AND stream = $2 AND before = $3) OR name = $4",
                           values, 4, compare_row, &judged);
    return answer == ANSWER_DONE ? judged.answer : OPENING_FAULT;
}

/* ---- Rows that are written */

static enum answer add_row(struct store *store, const struct opened *it, const struct wrapped *wrapped)
{
    char key[2 * KEY_WRAPPING_BYTES + 1], history[HISTORY_TEXT];
    history_write(&it->closed, history);
    write_hex(wrapped->bytes, wrapped->len, key);
    const struct value values[] = {
        text_value(it->name), number_value(it->shard), text_value(it->client), text_value(it->stream), text_value(it->before),
        number_value((uint64_t)it->etype), number_value(it->ends), number_value(wrapped->kvno),
        number_value((uint64_t)wrapped->etype), text_value(key), text_value(history),
    };
    return store_run(store, "INSERT INTO opened (name, shard, client, stream, before, etype, ends,"
                            " kvno, wrapping, key, history)"
                            " VALUES ($1, $2, $3, $4, $5, $6, $7, $8, $9, $10, $11)"
                            " ON CONFLICT (name) DO UPDATE SET shard = excluded.shard,"
                            " ends = excluded.ends, kvno = excluded.kvno, wrapping = excluded.wrapping,"
                            " key = excluded.key", values, sizeof values / sizeof *values);
}

static int wrap(struct kerberos *kerberos, const struct opened *it, struct wrapped *wrapped)
{
    char about[KEY_WRAPPING_ABOUT];
    write_about(it, about);
    return key_wrap(kerberos, KEY_WRAPPING_RECEIVER, about, it->key, it->key_len, wrapped);
}

enum answer openings_add(struct store *store, struct kerberos *kerberos, const struct opened *it)
{
    struct wrapped wrapped;
    return wrap(kerberos, it, &wrapped) == 0 ? add_row(store, it, &wrapped) : ANSWER_FAULT;
}

/* Some sessions whose keys are to be wrapped anew. */
struct some { size_t count; struct opened at[TOGETHER]; };

static enum answer note_some(void *given, const struct opened *it)
{
    struct some *some = given;
    some->at[some->count++] = *it;
    return ANSWER_DONE;
}

static enum answer wrap_again(struct store *store, struct kerberos *kerberos, const struct opened *it)
{
    struct wrapped wrapped;
    char key[2 * KEY_WRAPPING_BYTES + 1];
    if (wrap(kerberos, it, &wrapped) != 0)
        return ANSWER_FAULT;
    write_hex(wrapped.bytes, wrapped.len, key);
    const struct value values[] = { number_value(wrapped.kvno), number_value((uint64_t)wrapped.etype),
                                    text_value(key), text_value(it->name) };
    return store_run(store, "UPDATE opened SET kvno = $1, wrapping = $2, key = $3 WHERE name = $4", values, 4);
}

static enum answer wrap_some(struct store *store, struct kerberos *kerberos, const struct some *some)
{
    size_t i;
    for (i = 0; i < some->count; i++)
        if (wrap_again(store, kerberos, &some->at[i]) != ANSWER_DONE)
            return ANSWER_FAULT;
    return store->settle(store);
}

enum answer openings_wrap_anew(struct store *store, struct kerberos *kerberos, unsigned shard)
{
    struct some *some = malloc(sizeof *some);
    struct reading r = { .kerberos = kerberos, .take = note_some, .given = some, .rows = TOGETHER };
    uint32_t kvno;
    enum answer answer = some != NULL && key_newest(kerberos, &kvno) == 0 ? ANSWER_DONE : ANSWER_FAULT;
    while (answer == ANSWER_DONE && r.rows == TOGETHER) {
        const struct value values[] = { number_value(shard), number_value(kvno), text_value(r.last) };
        r.rows = some->count = 0;
        answer = store->ask(store, "SELECT " COLUMNS " FROM opened WHERE shard = $1 AND kvno <> $2"
                                  " AND name > $3 ORDER BY name LIMIT 64", values, 3, read_row, &r);
        if (answer == ANSWER_DONE)
            answer = wrap_some(store, kerberos, some);
        explicit_bzero(some, sizeof *some);
    }
    free(some);
    return answer;
}
