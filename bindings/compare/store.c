/* The store's sides: a commit that no power cut can undo, and one that the next cut undoes. W 16, T 1, N 64; nvm is a mapped file. */
#define _POSIX_C_SOURCE 200809L
#include "side.h"
#include "vandzulge.h"

#include <errno.h>
#include <fcntl.h>
#include <stdlib.h>
#include <string.h>
#include <sys/mman.h>
#include <unistd.h>

enum { WORDS = COUNTERS, LANES = 1, SLOTS = 64, LENGTH = VANDZULGE_IMAGE_WORDS(WORDS, LANES, SLOTS), BYTES = 8 * LENGTH };

struct opened {
    struct vz_store store;
    uint64_t cache[LENGTH], record[VANDZULGE_RECORD_WORDS];
    uint8_t flags[LENGTH];
    struct vz_commit last;
};

/* 1 to each word; a commit of fewer takes the first ones. */
static const uint64_t adds[] = {
    VZ_ADD(0, 0, 1), VZ_ADD(1, 1, 1), VZ_ADD(2, 2, 1), VZ_ADD(3, 3, 1), VZ_ADD(4, 4, 1), VZ_ADD(5, 5, 1), VZ_ADD(6, 6, 1), VZ_ADD(7, 7, 1), VZ_ADD(8, 8, 1),
    VZ_ADD(9, 9, 1), VZ_ADD(10, 10, 1), VZ_ADD(11, 11, 1), VZ_ADD(12, 12, 1), VZ_ADD(13, 13, 1), VZ_ADD(14, 14, 1), VZ_ADD(15, 15, 1),
};
_Static_assert(VZ_LENGTH(adds) == 4 * COUNTERS, "an ADD for each counter");

static void taken(enum vandzulge_refusal refusal)
{
    if (refusal != VANDZULGE_TAKEN)
        fail("the store", vz_refusal_text(refusal));
}

static void *open_store(const char *path)
{
    const uint64_t start[WORDS] = {0};
    struct opened *opened = calloc(1, sizeof *opened);
    const int file = open(path, O_RDWR | O_CREAT | O_EXCL, 0600);
    if (opened == NULL || file < 0 || ftruncate(file, BYTES) != 0)
        fail(path, strerror(errno));
    uint64_t *nvm = mmap(NULL, BYTES, PROT_READ | PROT_WRITE, MAP_SHARED, file, 0);
    if (nvm == MAP_FAILED)
        fail(path, strerror(errno));
    close(file);
    opened->store = (struct vz_store){.words = WORDS, .lanes = LANES, .slots = SLOTS, .length = LENGTH,
        .cache = opened->cache, .nvm = nvm, .flags = opened->flags, .record = opened->record};
    taken(vz_format(&opened->store, VANDZULGE_LAG_MAX, start));
    return opened;
}

/* Log, and on refusals 9 and 15 what docs/INTEGRATION.md says; the lane holds nothing that a Mark could drop. */
static void log_adds(struct vz_store *store, size_t count)
{
    enum vandzulge_refusal refusal = VANDZULGE_TAKEN;
    size_t least;
    for (size_t round = 0; round <= store->lanes; round++) {
        refusal = vz_log(store, 0, adds, 4 * count, NULL);
        if (refusal != VANDZULGE_REFUSED_OVERWRITE && refusal != VANDZULGE_REFUSED_LAG_PASSED)
            break;
        taken(vz_drain(store, 0));
        if (vz_least_floor(store, &least)) {
            taken(vz_mark(store, least, NULL));
            taken(vz_drain(store, least));
        }
    }
    taken(refusal);
}

static void commit_unsettled(void *state, size_t count)
{
    struct opened *opened = state;
    log_adds(&opened->store, count);
    taken(vz_redo(&opened->store, 0, &opened->last));
}

static void commit_settled(void *state, size_t count)
{
    struct opened *opened = state;
    commit_unsettled(opened, count);
    taken(vz_mark(&opened->store, 0, NULL));
    taken(vz_drain(&opened->store, 0));
}

static uint64_t cached(void *state, size_t i)
{
    const struct opened *opened = state;
    return vz_word(&opened->store, i);
}

/* What stands in nvm, for a store of which every commit is settled: it is the cached word, and the last commit is safe. */
static uint64_t stored(void *state, size_t i)
{
    const struct opened *opened = state;
    const uint64_t word = opened->store.nvm[1 + i];
    if (word != vz_word(&opened->store, i) || (opened->last.committed && !vz_is_safe(&opened->store, opened->last.stamp)))
        fail(store_settled.name, "a settled commit is not safe");
    return word;
}

static void close_store(void *state)
{
    struct opened *opened = state;
    munmap(opened->store.nvm, BYTES);
    free(opened);
}

const struct side store_settled = {
    .name = "the store, settled",
    .how = "Log of K ADDs, Redo, Mark, Drain: no power cut undoes it. W 16, T 1, N 64",
    .open = open_store,
    .commit = commit_settled,
    .counter = stored,
    .close = close_store,
};

const struct side store_unsettled = {
    .name = "the store, unsettled",
    .how = "Log of K ADDs, Redo: a power cut undoes the newest. W 16, T 1, N 64",
    .open = open_store,
    .commit = commit_unsettled,
    .counter = cached,
    .close = close_store,
};
