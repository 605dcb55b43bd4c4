/* The few calls of SQLite that all parts need. Each reports a fault on standard error. */
#ifndef DATABASE_H
#define DATABASE_H

#include "answer.h"

#include <sqlite3.h>
#include <stddef.h>
#include <stdint.h>

/* Opens the file, which is made if it doesn't exist, and runs the statements of its tables, each of
 * which may be run again. What is committed survives a loss of power. NULL after a fault. The
 * process's umask decides who may read a file that is made: SQLite gives its other files the same
 * mode. */
sqlite3 *open_database(const char *path, const char *tables);

/* Adds columns, each a table and "NAME TYPE NOT NULL DEFAULT VALUE", where the table has none of that name: for files
 * that were made before. In a transaction that writes. */
enum answer add_columns(sqlite3 *db, const char *const columns[][2], size_t count);

/* Runs statements that give no rows. */
enum answer run(sqlite3 *db, const char *sql);

/* The same of the beginning of a transaction that writes: it waits for other processes, and says
 * what to do if they have the file locked for longer. */
enum answer begin_writing(sqlite3 *db);

/* Ends it without effect, if one is open. */
void roll_back(sqlite3 *db);

/* A statement, and whether a value of a place couldn't be given since it was run last: then it isn't
 * run, as after any other fault. Its values stay as they are until it was run. */
struct statement { sqlite3_stmt *at; int is_unbound; };

/* Prepares it, or a list of them. */
enum answer prepare(sqlite3 *db, struct statement *statement, const char *sql);
enum answer prepare_all(sqlite3 *db, struct statement *statements, const char *const *sql, int count);

/* Gives a place of it a value; a text that is NULL is none. */
void bind_number(struct statement *statement, int place, sqlite3_int64 number);
void bind_text(struct statement *statement, int place, const char *text);
void bind_letters(struct statement *statement, int place, const char *text, size_t len);
void bind_bytes(struct statement *statement, int place, const void *bytes, size_t len);

/* Runs a statement that gives no rows, and makes it ready for the next time. */
enum answer step_once(struct statement *statement);

/* ANSWER_FOUND: the statement gives a row, and else ANSWER_DONE. The caller ends them. */
enum answer step_row(struct statement *statement);
/* A fault: there was no memory for a column of its row that was asked for. */
enum answer check_columns(const struct statement *statement);
void end_rows(struct statement *statement);

/* Rows that are inserted ROWS at a time, or as many as have ROW_BYTES, which is quicker than one by one. */
enum { ROWS = 32, ROW_BYTES = 1 << 17 };
struct rows { struct statement all; int places, count; size_t size; };

/* Prepares it for a statement that inserts one row, "INSERT INTO .. VALUES (..)", each of whose values is a place of
 * its own. */
enum answer prepare_rows(sqlite3 *db, struct rows *rows, const char *sql);

/* A row: its first value's place is the one after this number; bytes and names are copied by these two, others stay as
 * they are until they are inserted. Then it is added, and inserted now or with later ones. */
int next_row(const struct rows *rows);
void bind_copy(struct rows *rows, int place, const void *bytes, size_t len);
void bind_name(struct rows *rows, int place, const char *name);
enum answer add_row(struct rows *rows);

/* Inserts those that weren't yet, before the transaction is committed. Forgets them, where it is given up. */
enum answer insert_rows(struct rows *rows);
void forget_rows(struct rows *rows);

/* Ends statements, prepared or not, and a database, opened or not. */
void finalize(struct statement *statements, int count);
void close_database(sqlite3 *db);

/* Which file is at a place: 0 and where it lies, or -1. */
int find_file(const char *path, uint64_t *device, uint64_t *inode);

#endif
