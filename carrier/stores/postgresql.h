/* What both users of PostgreSQL need: the store, and the locks of shards. */
#ifndef POSTGRESQL_H
#define POSTGRESQL_H

#include "answer.h"

#include <libpq-fe.h>

/* Connects, and sets how long is waited for anything, unless the server or `where` does. NULL after
 * a fault, with a line of the log. */
PGconn *postgresql_connect(const char *where);

/* Logs a fault of the connection; -1. */
enum answer postgresql_report(PGconn *db, const char *what);

/* Whether a result has what was asked for; else it is logged. The result is cleared. */
int postgresql_is_done(PGconn *db, PGresult *result, const char *what);

#endif
