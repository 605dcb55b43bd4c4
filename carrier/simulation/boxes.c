/* What an application does with an outbox: its texts are two bytes, the serial. */
#include "world.h"

#include <stdio.h>
#include <stdlib.h>
#include <string.h>

enum { MOST = 40, BURST = 1200, MOST_OF_BURSTS = 2400, TOGETHER = 8, OF_MANY = 16, STATEMENT = 200,
       MANY_FIRST = 3, MANY_SECOND = 6, MANY_SILENT = 23 /* seconds */ };

static void must(int is_so, const char *what)
{
    if (is_so)
        return;
    (void)fprintf(stderr, "simulation: %s\n", what);
    exit(2);
}

int box_run(struct box *it, const char *sql, each_row *take, void *given)
{
    return sqlite3_exec(it->application, sql, take, given, NULL);
}

void box_open(struct box *it)
{
    must(sqlite3_open(it->path, &it->application) == SQLITE_OK, it->path);
    (void)box_run(it, "PRAGMA synchronous = OFF", NULL, NULL); /* else it only takes longer */
    it->is_used = 1;
}

void box_close(struct box *it)
{
    if (it->is_used)
        (void)sqlite3_close(it->application); /* no statement is left */
    it->is_used = 0;
}

static struct mark *room_of(struct box *it, unsigned name)
{
    if (it->marks[name] == NULL)
        it->marks[name] = malloc(MOST_TEXTS * sizeof *it->marks[name]);
    must(it->marks[name] != NULL, "no memory");
    return it->marks[name];
}

void box_put(struct box *it, unsigned name)
{
    struct name *of = &world.name[name];
    char sql[STATEMENT];
    if (of->serials + 1 >= MOST_TEXTS)
        return;
    (void)snprintf(sql, sizeof sql, "INSERT INTO text (session, body) VALUES ('s%u', x'%04x')", name, of->serials);
    if (box_run(it, sql, NULL, NULL) != SQLITE_OK) {
        int is_full = strstr(sqlite3_errmsg(it->application), "full") != NULL;
        world.full += is_full != 0;
        happened(KIND_BOUNDED, is_full != 0);
        return;
    }
    ends_wake(SENDER, now);
    ends_wake(SENDER_2, now);
    of->put_at[of->serials] = (unsigned short)world.second;
    room_of(it, name)[it->count[name]++] = (struct mark){ sqlite3_last_insert_rowid(it->application), of->serials++ };
    happened(KIND_MANY, has(KIND_MANY) != 0);
}

/* Of many names each has its texts in one of two seconds, or all in one while the carrier is silent. */
static void put_many(struct box *it)
{
    unsigned half = world.names / 2, name, i;
    int is_first = world.second == (has(KIND_SILENT) ? MANY_SILENT : MANY_FIRST);
    if (!is_first && (has(KIND_SILENT) || world.second != MANY_SECOND))
        return;
    for (name = is_first ? 0 : half; name < (is_first && !has(KIND_SILENT) ? half : world.names); name++)
        for (i = 0; i < limited(LIMIT_TEXTS, OF_MANY); i++)
            box_put(it, name);
}

void box_put_some(struct box *it)
{
    unsigned name = drawn(world.names), most = limited(LIMIT_TEXTS, has(KIND_BURSTS) ? MOST_OF_BURSTS : MOST), count;
    int is_burst = has(KIND_BURSTS) && drawn(8) == 0;
    if (has(KIND_MANY)) {
        put_many(it);
        return;
    }
    if (has(KIND_FORKED) && is_stream(world.names - 1) && world.second < FORKED)
        name = world.second == FORKED - 1 ? world.names - 1 : name % (world.names - 1); /* it begins just before the copy */
    happened(KIND_BURSTS, is_burst != 0);
    (void)box_run(it, "BEGIN IMMEDIATE", NULL, NULL); /* a sender that writes is over before */
    for (count = is_burst ? BURST : 1 + drawn(TOGETHER); count > 0 && it->count[name] < most; count--)
        box_put(it, name);
    (void)box_run(it, "COMMIT", NULL, NULL);
}

void box_copy(struct box *to, const struct box *from)
{
    static const char *const files[] = { "", "-wal", "-shm" };
    char path[PATHS + 8];
    sqlite3_backup *it;
    unsigned i;
    for (i = 0; i < sizeof files / sizeof *files; i++) {
        (void)snprintf(path, sizeof path, "%s%s", to->path, files[i]);
        (void)remove(path); /* it may not be there */
    }
    box_open(to);
    it = sqlite3_backup_init(to->application, "main", from->application, "main");
    must(it != NULL && sqlite3_backup_step(it, -1) == SQLITE_DONE, to->path);
    (void)sqlite3_backup_finish(it); /* each step went well */
    for (i = 0; i < world.names; i++) {
        to->count[i] = to->own_from[i] = from->count[i];
        if (from->count[i] > 0)
            memcpy(room_of(to, i), from->marks[i], from->count[i] * sizeof *from->marks[i]);
    }
}

int box_is_done(const struct box *it)
{
    unsigned name, i;
    for (name = 0; name < world.names; name++)
        for (i = it->count[name]; i > 0; i--)
            if (world.name[name].fate[it->marks[name][i - 1].serial] == NOTHING_YET)
                return 0;
    return 1;
}
