#include "postgresql.h"
#include "log.h"

enum answer postgresql_report(PGconn *db, const char *what)
{
    log_fact(LEVEL_ERROR, "postgresql_fault", field_text("of", what),
             field_text("text", PQerrorMessage(db)));
    return ANSWER_FAULT;
}

int postgresql_is_done(PGconn *db, PGresult *result, const char *what)
{
    ExecStatusType status = PQresultStatus(result);
    PQclear(result);
    if (status == PGRES_COMMAND_OK || status == PGRES_TUPLES_OK)
        return 1;
    postgresql_report(db, what);
    return 0;
}

/* What the server says beside answers, as that it ends: libpq would print it as it is. */
static void note(void *given, const char *message)
{
    (void)given;
    log_fact(LEVEL_WARNING, "postgresql_notice", field_text("text", message));
}

/* What was set before holds. */
static const char timeouts[] =
    "SELECT set_config(name, value, false) FROM (VALUES ('lock_timeout', '3s'),"
    " ('idle_in_transaction_session_timeout', '10s'), ('statement_timeout', '30s'),"
    " ('tcp_keepalives_idle', '5'), ('tcp_keepalives_interval', '2'),"
    " ('tcp_keepalives_count', '3'), ('tcp_user_timeout', '10s'))"
    " AS given (name, value) JOIN pg_settings USING (name) WHERE source = 'default'";

PGconn *postgresql_connect(const char *where)
{
    /* What `where` says holds: it comes last. */
    static const char *const names[] = { "connect_timeout", "tcp_user_timeout", "keepalives_idle",
                                         "keepalives_interval", "keepalives_count",
                                         "application_name", "dbname", NULL };
    const char *values[] = { "5", "5000", "2", "1", "3", "krbrelay", where, NULL };
    PQconninfoOption *parts = PQconninfoParse(where, NULL);
    PGconn *db;
    if (parts == NULL) { /* what libpq says of it may have its password */
        log_fact(LEVEL_ERROR, "store_unknown", field_text("store", "postgresql"), field_text("text",
                 "--store isn't of the form postgresql://USER@HOST/DATABASE"));
        return NULL;
    }
    PQconninfoFree(parts);
    db = PQconnectdbParams(names, values, 1);
    PQsetNoticeProcessor(db, note, NULL);
    if (PQstatus(db) != CONNECTION_OK)
        postgresql_report(db, "no connection: is the server started, and does --store name it?");
    else if (postgresql_is_done(db, PQexec(db, timeouts), "timeouts"))
        return db;
    PQfinish(db);
    return NULL;
}
