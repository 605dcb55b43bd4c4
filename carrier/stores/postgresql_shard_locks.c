/* Locks of shards in PostgreSQL: advisory locks of one connection, in a class that the schema has.
 * Each receiver also has a shared lock, by which all are counted. */
#include "log.h"
#include "postgresql.h"
#include "shard_locks.h"
#include "text.h"

#include <stdio.h>
#include <stdlib.h>
#include <string.h>

struct postgresql_shard_locks {
    struct shard_locks base;
    const char *where;
    PGconn *db;  /* NULL: it has to be opened (again) */
    int is_counted;
    char class[16];
};

/* Copies a value of the one row of a result: 1, or 0 and "" if there is none, or it is too long. */
static int read_value(const PGresult *result, int column, char *text, size_t room)
{
    text[0] = 0;
    if (PQresultStatus(result) != PGRES_TUPLES_OK || PQntuples(result) != 1
        || (size_t)PQgetlength(result, 0, column) >= room)
        return 0;
    strcpy(text, PQgetvalue(result, 0, column));
    return 1;
}

/* The first value of the first row of a statement with one or two values, as a text; "" after a
 * fault, after which the connection isn't used any more. */
static const char *ask_server(struct postgresql_shard_locks *s, const char *sql, unsigned shard, char text[32])
{
    char number[16];
    const char *const values[] = { s->class, number };
    PGresult *result;
    write_whole(number, sizeof number, "%u", shard);
    result = PQexecParams(s->db, sql, 2, NULL, values, NULL, NULL, 0);
    if (!read_value(result, 0, text, 32))
        postgresql_report(s->db, "locks of shards");
    PQclear(result);
    if (text[0] == 0) {
        PQfinish(s->db);
        s->db = NULL;
    }
    return text;
}

/* The class of the locks. */
static const char first[] = "SELECT hashtext('krbrelay ' || current_schema())";

/* The lock by which this receiver is counted, which is number 2147483647 of the class. */
static const char *const counted[] = { "SELECT pg_advisory_unlock_shared($1::int, $2::int)",
                                       "SELECT pg_try_advisory_lock_shared($1::int, $2::int)" };
enum { COUNTED = 2147483647 };

/* Has this receiver be counted, unless it is cut off. */
static int be_counted(struct postgresql_shard_locks *s)
{
    char text[32];
    int is_wanted = !s->base.is_cut_off;
    if (is_wanted == s->is_counted)
        return 1;
    if (*ask_server(s, counted[is_wanted], COUNTED, text) != 't')
        return 0;
    s->is_counted = is_wanted;
    return 1;
}

static int be_there(struct postgresql_shard_locks *s)
{
    PGresult *result;
    int is_fine = 0;
    s->is_counted = 0;
    s->db = postgresql_connect(s->where);
    if (s->db == NULL)
        return 0;
    if (postgresql_is_done(s->db, PQexec(s->db, "SET idle_session_timeout = '10s';"
                                                " SET statement_timeout = '3s'"), "timeouts")) {
        result = PQexec(s->db, first);
        is_fine = read_value(result, 0, s->class, sizeof s->class);
        if (!is_fine)
            postgresql_report(s->db, "locks of shards");
        PQclear(result);
    }
    if (is_fine && be_counted(s))
        return 1;
    PQfinish(s->db); /* NULL, if a question has ended it */
    s->db = NULL;
    return 0;
}

static int take_shard(struct shard_locks *base, unsigned shard)
{
    struct postgresql_shard_locks *s = (struct postgresql_shard_locks *)base;
    char text[32];
    if (s->db == NULL)
        return -1;
    (void)ask_server(s, "SELECT pg_try_advisory_lock($1::int, $2::int)", shard, text); /* `text` has it */
    return text[0] == 0 ? -1 : text[0] == 't';
}

static void give_back(struct shard_locks *base, unsigned shard)
{
    struct postgresql_shard_locks *s = (struct postgresql_shard_locks *)base;
    char text[32];
    if (s->db != NULL)
        (void)ask_server(s, "SELECT pg_advisory_unlock($1::int, $2::int)", shard, text); /* or it ends with the connection */
}

/* Opens the connection again, and takes the locks that were lost with it. */
static int come_again(struct postgresql_shard_locks *s)
{
    unsigned shard;
    if (!be_there(s))
        return 0;
    for (shard = 0; shard < CARRIER_SHARDS && s->db != NULL; shard++)
        if (s->base.has[shard])
            (void)shard_locks_take(&s->base, shard); /* `has` says whether it is taken */
    return s->db != NULL;
}

static int count(struct shard_locks *base)
{
    struct postgresql_shard_locks *s = (struct postgresql_shard_locks *)base;
    char text[32];
    if ((s->db == NULL && !come_again(s)) || !be_counted(s))
        return -1;
    /* `text` has it. */
    (void)ask_server(s, "SELECT count(*) FROM pg_locks JOIN pg_database ON pg_database.oid = database"
                        " WHERE locktype = 'advisory' AND datname = current_database() AND granted"
                        " AND classid::bigint = ($1::int::bigint & 4294967295) AND objid = 2147483647"
                        " AND objsubid = 2 AND $2::int = 0", 0, text);
    return text[0] == 0 ? -1 : atoi(text);
}

static void close_locks(struct shard_locks *base)
{
    struct postgresql_shard_locks *s = (struct postgresql_shard_locks *)base;
    PQfinish(s->db);
    free(s);
}

struct shard_locks *postgresql_shard_locks_open(const char *where)
{
    static const struct shard_locks_calls calls = { count, take_shard, give_back, close_locks };
    struct postgresql_shard_locks *s = shard_locks_make(sizeof *s, &calls);
    if (s == NULL)
        return NULL;
    s->where = where;
    return shard_locks_made(&s->base, be_there(s));
}
