/* SQLite's sides: a transaction with an UPDATE for each counter, in a file and in memory, and one UPDATE for all K. */
#include "side.h"

#include <sqlite3.h>
#include <stdio.h>
#include <stdlib.h>

struct opened {
    sqlite3 *database;
    sqlite3_stmt *begin, *add, *add_first, *commit, *read;
};

static void done(sqlite3 *database, int code)
{
    if (code != SQLITE_OK)
        fail("SQLite", sqlite3_errmsg(database));
}

static void run(sqlite3 *database, const char *sql)
{
    done(database, sqlite3_exec(database, sql, NULL, NULL, NULL));
}

static sqlite3_stmt *prepare(sqlite3 *database, const char *sql)
{
    sqlite3_stmt *statement;
    done(database, sqlite3_prepare_v3(database, sql, -1, SQLITE_PREPARE_PERSISTENT, &statement, NULL));
    return statement;
}

static void step(sqlite3 *database, sqlite3_stmt *statement)
{
    if (sqlite3_step(statement) != SQLITE_DONE)
        fail("SQLite", sqlite3_errmsg(database));
    done(database, sqlite3_reset(statement));
}

/* Journal modes: WAL for a file, MEMORY for a database in memory; with both a transaction can be rolled back. It is no error to SQLite if it keeps another one, so the answer is
 * looked at. In the exclusive locking mode the index of the write-ahead log is in this process's memory alone. */
static void set(sqlite3 *database, const char *journal_mode)
{
    char sql[64];
    run(database, "PRAGMA page_size = 512; PRAGMA locking_mode = EXCLUSIVE; PRAGMA synchronous = OFF");
    snprintf(sql, sizeof sql, "PRAGMA journal_mode = %s", journal_mode);
    sqlite3_stmt *statement = prepare(database, sql);
    if (sqlite3_step(statement) != SQLITE_ROW || sqlite3_stricmp((const char *)sqlite3_column_text(statement, 0), journal_mode) != 0)
        fail("SQLite: no journal mode", journal_mode);
    done(database, sqlite3_finalize(statement));
}

static void *open_with(const char *path, const char *journal_mode)
{
    struct opened *opened = malloc(sizeof *opened);
    if (opened == NULL)
        fail(path, "no memory");
    if (sqlite3_open_v2(path, &opened->database, SQLITE_OPEN_READWRITE | SQLITE_OPEN_CREATE | SQLITE_OPEN_NOMUTEX, NULL) != SQLITE_OK)
        fail(path, sqlite3_errmsg(opened->database));
    set(opened->database, journal_mode);
    run(opened->database, "CREATE TABLE counters (id INTEGER PRIMARY KEY, value INTEGER NOT NULL)");
    sqlite3_stmt *insert = prepare(opened->database, "INSERT INTO counters VALUES (?1, 0)");
    for (int i = 0; i < COUNTERS; i++) {
        done(opened->database, sqlite3_bind_int(insert, 1, i));
        step(opened->database, insert);
    }
    done(opened->database, sqlite3_finalize(insert));
    opened->begin = prepare(opened->database, "BEGIN");
    opened->add = prepare(opened->database, "UPDATE counters SET value = value + 1 WHERE id = ?1");
    opened->add_first = prepare(opened->database, "UPDATE counters SET value = value + 1 WHERE id < ?1");
    opened->commit = prepare(opened->database, "COMMIT");
    opened->read = prepare(opened->database, "SELECT value FROM counters WHERE id = ?1");
    return opened;
}

static void *open_file(const char *path)
{
    return open_with(path, "WAL");
}

static void *open_memory(const char *path)
{
    (void)path;
    return open_with(":memory:", "MEMORY");
}

static void commit_each(void *state, size_t count)
{
    struct opened *opened = state;
    step(opened->database, opened->begin);
    for (size_t i = 0; i < count; i++) {
        done(opened->database, sqlite3_bind_int(opened->add, 1, (int)i));
        step(opened->database, opened->add);
    }
    step(opened->database, opened->commit);
}

/* A statement outside BEGIN and COMMIT is a transaction. */
static void commit_first(void *state, size_t count)
{
    struct opened *opened = state;
    done(opened->database, sqlite3_bind_int(opened->add_first, 1, (int)count));
    step(opened->database, opened->add_first);
}

static uint64_t counter(void *state, size_t i)
{
    struct opened *opened = state;
    done(opened->database, sqlite3_bind_int(opened->read, 1, (int)i));
    if (sqlite3_step(opened->read) != SQLITE_ROW)
        fail("SQLite", sqlite3_errmsg(opened->database));
    const uint64_t value = (uint64_t)sqlite3_column_int64(opened->read, 0);
    done(opened->database, sqlite3_reset(opened->read));
    return value;
}

static void close_database(void *state)
{
    struct opened *opened = state;
    sqlite3_stmt *const statements[] = {opened->begin, opened->add, opened->add_first, opened->commit, opened->read};
    for (size_t i = 0; i < sizeof statements / sizeof statements[0]; i++)
        done(opened->database, sqlite3_finalize(statements[i]));
    if (sqlite3_close(opened->database) != SQLITE_OK)
        fail("SQLite", sqlite3_errmsg(opened->database));
    free(opened);
}

const struct side sqlite_file = {
    .name = "SQLite in a file, K UPDATEs",
    .how = "BEGIN, an UPDATE for each counter, COMMIT, all prepared; page_size 512, journal_mode WAL, synchronous OFF, locking_mode EXCLUSIVE, opened without mutex",
    .open = open_file,
    .commit = commit_each,
    .counter = counter,
    .close = close_database,
};

const struct side sqlite_memory = {
    .name = "SQLite in memory, K UPDATEs",
    .how = "the same in `:memory:`, journal_mode MEMORY: can be rolled back, but is lost with the process",
    .open = open_memory,
    .commit = commit_each,
    .counter = counter,
    .close = close_database,
};

const struct side sqlite_statement = {
    .name = "SQLite in memory, one UPDATE",
    .how = "the same with one UPDATE over the first K rows, which is a transaction by itself",
    .open = open_memory,
    .commit = commit_first,
    .counter = counter,
    .close = close_database,
};
