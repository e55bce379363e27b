/* LMDB's sides: a write transaction with a put for each counter, and one in which all K are one value. */
#include "side.h"

#include <lmdb.h>
#include <stdlib.h>
#include <string.h>

struct opened {
    MDB_env *environment;
    MDB_dbi table;
    size_t width; /* counters a value: 1, or all */
};

static void done(int code)
{
    if (code != MDB_SUCCESS)
        fail("LMDB", mdb_strerror(code));
}

/* Adds 1 to the first `count` counters of the value with this key. */
static void add(MDB_cursor *cursor, unsigned key, size_t count)
{
    uint64_t counters[COUNTERS];
    MDB_val name = {sizeof key, &key}, value;
    done(mdb_cursor_get(cursor, &name, &value, MDB_SET));
    memcpy(counters, value.mv_data, value.mv_size); /* LMDB aligns to 2 bytes only */
    for (size_t i = 0; i < count; i++)
        counters[i] += 1;
    value.mv_data = counters;
    done(mdb_cursor_put(cursor, &name, &value, MDB_CURRENT));
}

static void *open_with(const char *path, size_t width)
{
    uint64_t zeros[COUNTERS] = {0};
    MDB_txn *txn;
    struct opened *opened = malloc(sizeof *opened);
    if (opened == NULL)
        fail(path, "no memory");
    opened->width = width;
    done(mdb_env_create(&opened->environment));
    done(mdb_env_open(opened->environment, path, MDB_NOSUBDIR | MDB_WRITEMAP | MDB_NOSYNC | MDB_NOMETASYNC | MDB_NOLOCK, 0600));
    done(mdb_txn_begin(opened->environment, NULL, 0, &txn));
    done(mdb_dbi_open(txn, NULL, MDB_INTEGERKEY, &opened->table));
    for (unsigned key = 0; key < COUNTERS / width; key++) {
        MDB_val name = {sizeof key, &key}, value = {width * sizeof(uint64_t), zeros};
        done(mdb_put(txn, opened->table, &name, &value, 0));
    }
    done(mdb_txn_commit(txn));
    return opened;
}

static void *open_puts(const char *path)
{
    return open_with(path, 1);
}

static void *open_put(const char *path)
{
    return open_with(path, COUNTERS);
}

/* A write transaction: a put for each counter, or one where all counters are one value. */
static void commit(void *state, size_t count)
{
    const struct opened *opened = state;
    MDB_txn *txn;
    MDB_cursor *cursor;
    done(mdb_txn_begin(opened->environment, NULL, 0, &txn));
    done(mdb_cursor_open(txn, opened->table, &cursor));
    if (opened->width == 1)
        for (unsigned key = 0; key < count; key++)
            add(cursor, key, 1);
    else
        add(cursor, 0, count);
    mdb_cursor_close(cursor);
    done(mdb_txn_commit(txn));
}

static uint64_t counter(void *state, size_t i)
{
    const struct opened *opened = state;
    unsigned key = (unsigned)(i / opened->width);
    uint64_t counters[COUNTERS];
    MDB_val name = {sizeof key, &key}, value;
    MDB_txn *txn;
    done(mdb_txn_begin(opened->environment, NULL, MDB_RDONLY, &txn));
    done(mdb_get(txn, opened->table, &name, &value));
    memcpy(counters, value.mv_data, opened->width * sizeof(uint64_t));
    mdb_txn_abort(txn);
    return counters[i % opened->width];
}

static void close_environment(void *state)
{
    struct opened *opened = state;
    mdb_env_close(opened->environment);
    free(opened);
}

const struct side lmdb_puts = {
    .name = "LMDB, K puts",
    .how = "a write transaction, in it for each counter, which is a value of 8 bytes, mdb_cursor_get with MDB_SET and mdb_cursor_put with MDB_CURRENT;"
           " MDB_WRITEMAP, MDB_NOSYNC, MDB_NOMETASYNC, MDB_NOLOCK",
    .open = open_puts,
    .commit = commit,
    .counter = counter,
    .close = close_environment,
};

const struct side lmdb_put = {
    .name = "LMDB, one put",
    .how = "the same with all 16 counters in one value, of which K are changed",
    .open = open_put,
    .commit = commit,
    .counter = counter,
    .close = close_environment,
};
