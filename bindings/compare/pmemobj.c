/* libpmemobj's sides: a transaction that adds each counter to its undo log by itself, and one that adds all K, which stand side by side, as one range. */
#include "side.h"

#include <libpmemobj/base.h>
#include <libpmemobj/pool_base.h>
#include <libpmemobj/tx_base.h>
#include <stdlib.h>
#include <string.h>

struct opened {
    PMEMobjpool *pool;
    uint64_t *counters;
};

/* The library reads its environment before main begins, so that bindings/compare/run sets it. */
static void *open_pool(const char *path)
{
    const char *names[] = {"PMEM_IS_PMEM_FORCE", "PMEM_NO_FLUSH"};
    for (size_t i = 0; i < sizeof names / sizeof names[0]; i++) {
        const char *value = getenv(names[i]);
        if (value == NULL || strcmp(value, "1") != 0)
            fail(names[i], "is not 1, so that the caches are flushed; start the program by bindings/compare/run");
    }
    struct opened *opened = malloc(sizeof *opened);
    if (opened == NULL)
        fail(path, "no memory");
    opened->pool = pmemobj_create(path, "counters", PMEMOBJ_MIN_POOL, 0600);
    if (opened->pool == NULL)
        fail(path, pmemobj_errormsg());
    opened->counters = pmemobj_direct(pmemobj_root(opened->pool, COUNTERS * sizeof(uint64_t))); /* a new root is all 0 */
    if (opened->counters == NULL)
        fail(path, pmemobj_errormsg());
    return opened;
}

static void begin(struct opened *opened)
{
    if (pmemobj_tx_begin(opened->pool, NULL, TX_PARAM_NONE) != 0)
        fail("libpmemobj", pmemobj_errormsg());
}

static void add_range(const uint64_t *counters, size_t count)
{
    if (pmemobj_tx_add_range_direct(counters, count * sizeof *counters) != 0)
        fail("libpmemobj", pmemobj_errormsg());
}

static void end(void)
{
    pmemobj_tx_commit();
    if (pmemobj_tx_end() != 0)
        fail("libpmemobj", pmemobj_errormsg());
}

static void commit_ranges(void *state, size_t count)
{
    struct opened *opened = state;
    begin(opened);
    for (size_t i = 0; i < count; i++) {
        add_range(opened->counters + i, 1);
        opened->counters[i] += 1;
    }
    end();
}

static void commit_range(void *state, size_t count)
{
    struct opened *opened = state;
    begin(opened);
    add_range(opened->counters, count);
    for (size_t i = 0; i < count; i++)
        opened->counters[i] += 1;
    end();
}

static uint64_t counter(void *state, size_t i)
{
    const struct opened *opened = state;
    return opened->counters[i];
}

static void close_pool(void *state)
{
    struct opened *opened = state;
    pmemobj_close(opened->pool);
    free(opened);
}

const struct side pmemobj_ranges = {
    .name = "libpmemobj, K ranges",
    .how = "pmemobj_tx_begin, pmemobj_tx_add_range_direct for each counter, commit and end; PMEM_IS_PMEM_FORCE=1, PMEM_NO_FLUSH=1",
    .open = open_pool,
    .commit = commit_ranges,
    .counter = counter,
    .close = close_pool,
};

const struct side pmemobj_range = {
    .name = "libpmemobj, one range",
    .how = "the same with one pmemobj_tx_add_range_direct for all K, which stand side by side",
    .open = open_pool,
    .commit = commit_range,
    .counter = counter,
    .close = close_pool,
};
