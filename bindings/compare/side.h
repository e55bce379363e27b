/* One way to keep counters, as the benchmark sees it: a line of its table. Each library has a file that defines its sides. */
#ifndef SIDE_H
#define SIDE_H

#include <stddef.h>
#include <stdint.h>

enum { COUNTERS = 16 };

struct side {
    const char *name;                            /* in the table */
    const char *how;                             /* below the table: what a commit is, and with which settings */
    void *(*open)(const char *path);             /* a new file with COUNTERS counters, all 0 */
    void (*commit)(void *state, size_t count);   /* adds 1 to each of the first `count` counters, to all or to none */
    uint64_t (*counter)(void *state, size_t i);  /* what counter i holds now */
    void (*close)(void *state);
};

extern const struct side store_settled, store_unsettled;
extern const struct side pmemobj_ranges, pmemobj_range;
extern const struct side lmdb_puts, lmdb_put;
extern const struct side sqlite_file, sqlite_memory, sqlite_statement;

/* Ends the program with a line that says who failed, and why. */
_Noreturn void fail(const char *who, const char *why);

#endif
