/* An example: each text becomes a row of the table `effect`. */
#include "effect.h"

const char effect_tables_sqlite[] =
    "CREATE TABLE IF NOT EXISTS effect (id INTEGER PRIMARY KEY AUTOINCREMENT,"
    " session TEXT NOT NULL, number INTEGER NOT NULL, part INTEGER NOT NULL, text BLOB NOT NULL,"
    " client TEXT NOT NULL DEFAULT '', stream TEXT NOT NULL DEFAULT '');"
    "CREATE TABLE IF NOT EXISTS aside (id INTEGER PRIMARY KEY AUTOINCREMENT,"
    " session TEXT NOT NULL, number INTEGER NOT NULL, part INTEGER NOT NULL, text BLOB NOT NULL,"
    " client TEXT NOT NULL, stream TEXT NOT NULL, reason TEXT NOT NULL,"
    " since INTEGER NOT NULL DEFAULT (CAST(strftime('%s') AS INTEGER)));";

const char effect_tables_postgresql[] =
    "CREATE TABLE IF NOT EXISTS effect (id bigserial PRIMARY KEY,"
    " session text NOT NULL, number bigint NOT NULL, part int NOT NULL, text bytea NOT NULL,"
    " client text NOT NULL DEFAULT '', stream text NOT NULL DEFAULT '');"
    "CREATE TABLE IF NOT EXISTS aside (id bigserial PRIMARY KEY,"
    " session text NOT NULL, number bigint NOT NULL, part int NOT NULL, text bytea NOT NULL,"
    " client text NOT NULL, stream text NOT NULL, reason text NOT NULL,"
    " since bigint NOT NULL DEFAULT extract(epoch FROM now()));"
    "DO $$ BEGIN IF NOT EXISTS (SELECT FROM pg_attribute WHERE attrelid = 'effect'::regclass"
    " AND attname = 'stream') THEN"
    " ALTER TABLE effect ADD COLUMN IF NOT EXISTS client text NOT NULL DEFAULT '',"
    " ADD COLUMN stream text NOT NULL DEFAULT '';"
    " END IF; END $$;";

const char *const effect_columns[][2] = {
    { "effect", "client TEXT NOT NULL DEFAULT ''" },
    { "effect", "stream TEXT NOT NULL DEFAULT ''" },
};
const size_t effect_column_count = sizeof effect_columns / sizeof *effect_columns;

enum answer take_effect(struct store *store, const struct arrived *it)
{
    const struct value values[] = { text_value(it->session), number_value(it->number), number_value(it->part),
                                    bytes_value(it->text, it->len), text_value(it->client), text_value(it->stream) };
    return store_add(store, "INSERT INTO effect (session, number, part, text, client, stream)"
                            " VALUES ($1, $2, $3, $4, $5, $6)", values, 6);
}
