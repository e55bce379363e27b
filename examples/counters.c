/* Two counters that survive kill -9 at any time. `counters FILE [COUNT]` adds 1 to both, COUNT times or for ever, in a store in FILE, and prints each sum that no kill can undo.
 *
 *   cc -std=c99 -O2 -Wall -Wextra -pedantic -Werror -I include examples/counters.c crates/vandzulge/out/libvandzulge.a -o counters
 *
 * The mapped file stands for the persistent memory: of a process that is killed the kernel keeps all stores, in order. With power cuts that is not so: for those nvm must be
 * persistent memory, and docs/INTEGRATION.md says what to flush. Exit code: 0 done, 1 a refusal or an error, 2 usage. */
#define _XOPEN_SOURCE 700
#include "vandzulge.h"

#include <errno.h>
#include <fcntl.h>
#include <inttypes.h>
#include <stdio.h>
#include <stdlib.h>
#include <string.h>
#include <sys/mman.h>
#include <sys/stat.h>
#include <unistd.h>

enum { WORDS = 16, LANES = 1, SLOTS = 64, LENGTH = VANDZULGE_IMAGE_WORDS(WORDS, LANES, SLOTS), BYTES = 8 * LENGTH };

static void check(enum vandzulge_refusal refusal)
{
    if (refusal != VANDZULGE_TAKEN) {
        fprintf(stderr, "refused %d: %s\n", (int)refusal, vz_refusal_text(refusal));
        exit(1);
    }
}

static void stop(const char *name, const char *why)
{
    fprintf(stderr, "%s: %s\n", name, why);
    exit(1);
}

/* The file as memory. Nobody else may write to a store: the lock keeps a second process out, and ends with this one. */
static uint64_t *map(const char *name, bool is_new)
{
    struct stat status;
    void *memory;
    const int file = open(name, is_new ? O_RDWR | O_CREAT : O_RDWR, 0666);
    if (file < 0 || lockf(file, F_TLOCK, 0) != 0 || (is_new && ftruncate(file, BYTES) != 0) || fstat(file, &status) != 0)
        stop(name, strerror(errno));
    if (status.st_size != BYTES)
        stop(name, "no store of counters");
    memory = mmap(NULL, BYTES, PROT_READ | PROT_WRITE, MAP_SHARED, file, 0);
    if (memory == MAP_FAILED)
        stop(name, strerror(errno));
    return memory;
}

int main(int argc, char **argv)
{
    const uint64_t start[WORDS] = {0}, add[] = {VZ_ADD(0, 0, 1), VZ_ADD(1, 1, 1)}; /* 1 to word 0 and 1 to word 1: both or none */
    uint64_t cache[LENGTH], record[VANDZULGE_RECORD_WORDS];
    uint8_t flags[LENGTH];
    struct vz_store store = {.words = WORDS, .lanes = LANES, .slots = SLOTS, .length = LENGTH, .cache = cache, .flags = flags, .record = record};
    struct vz_recovered found = {0};
    struct vz_commit commit = {0};
    char *end = "", fresh[4096];
    unsigned long long left = argc == 3 ? strtoull(argv[2], &end, 10) : 0;
    if (argc < 2 || argc > 3 || *end != '\0' || snprintf(fresh, sizeof fresh, "%s.new", argv[1]) >= (int)sizeof fresh) {
        fputs("usage: counters FILE [COUNT]\n", stderr);
        return 2;
    }
    setvbuf(stdout, NULL, _IOLBF, BUFSIZ); /* each line goes out before the next transaction begins */
    if (access(argv[1], F_OK) != 0) {      /* a new store; a Format that is cut short leaves none, so the file has its name only when Format is done */
        store.nvm = map(fresh, true);
        if (access(argv[1], F_OK) == 0) /* looked at again with the lock in hand */
            stop(argv[1], "another process has just made it");
        check(vz_format(&store, VANDZULGE_LAG_MAX, start));
        if (rename(fresh, argv[1]) != 0)
            stop(argv[1], strerror(errno));
        puts("formatted");
    } else { /* cache, flags and record of the last process are gone: recovery makes them anew from nvm, and undoes what is not safe */
        store.nvm = map(argv[1], false);
        check(vz_recover_read(&store, VANDZULGE_LAG_MAX, VANDZULGE_NO_LIMIT, &found));
        if (store.words != WORDS || store.lanes != LANES || store.slots != SLOTS) /* what the trailer says */
            stop(argv[1], "no store of counters");
        if (found.has_boundary)
            printf("recovered: boundary %" PRIu64 ", %" PRIu64 " entries undone, %" PRIu64 " slots torn\n", found.boundary, found.undone, found.torn);
        else
            printf("recovered: nothing to undo, %" PRIu64 " slots torn\n", found.torn);
    }
    printf("counters %" PRIu64 " %" PRIu64 "\n", vz_word(&store, 0), vz_word(&store, 1));
    if (vz_word(&store, 0) != vz_word(&store, 1))
        stop(argv[1], "the two counters differ");
    for (; argc == 2 || left > 0; left--) {
        check(vz_log(&store, 0, add, VZ_LENGTH(add), NULL));
        check(vz_redo(&store, 0, &commit)); /* with one lane never stale: there was no commit since the Log */
        check(vz_settle(&store, 0, NULL));
        check(vz_drain(&store, 0));
        if (commit.committed && vz_is_safe(&store, commit.stamp))
            printf("kept %" PRIu64 "\n", vz_word(&store, 0));
    }
    return ferror(stdout) ? 1 : 0;
}
