/* Times commits of counters in the store beside other stores, in one process, and prints a table in Markdown. `compare FOLDER` keeps its files in FOLDER.
 *
 * In a round each side makes the same number of commits, one side after the other; who is first goes around. After each turn every counter of that side is looked at.
 * The number given is the median of all rounds, in nanoseconds of the thread's own processor time a commit. */
#define _POSIX_C_SOURCE 200809L
#include "side.h"

#include <stdio.h>
#include <stdlib.h>
#include <time.h>

enum { ROUNDS = 101, COMMITS = 1000 };

static const struct side *const sides[] = {
    &store_settled, &store_unsettled, /* the first one is what the others are compared with */
#ifdef WITH_PMEMOBJ
    &pmemobj_ranges, &pmemobj_range,
#endif
#ifdef WITH_LMDB
    &lmdb_puts, &lmdb_put,
#endif
#ifdef WITH_SQLITE
    &sqlite_file, &sqlite_memory, &sqlite_statement,
#endif
};
enum { SIDES = sizeof sides / sizeof sides[0] };

static const size_t counts[] = {1, 4, 16};
enum { COUNTS = sizeof counts / sizeof counts[0] };

_Noreturn void fail(const char *who, const char *why)
{
    fprintf(stderr, "compare: %s: %s\n", who, why);
    exit(1);
}

static double now(void)
{
    struct timespec time;
    if (clock_gettime(CLOCK_THREAD_CPUTIME_ID, &time) != 0)
        fail("clock_gettime", "no processor time of the thread");
    return (double)time.tv_sec * 1e9 + (double)time.tv_nsec;
}

/* Every counter holds what was added to it, also those that this commit does not change. */
static void check(const struct side *side, void *state, const uint64_t *expected)
{
    for (size_t i = 0; i < COUNTERS; i++) {
        const uint64_t found = side->counter(state, i);
        if (found != expected[i]) {
            fprintf(stderr, "compare: %s: counter %zu holds %llu in place of %llu\n", side->name, i, (unsigned long long)found, (unsigned long long)expected[i]);
            exit(1);
        }
    }
}

/* One turn of a side: nanoseconds a commit. */
static double turn(const struct side *side, void *state, size_t count, uint64_t *expected)
{
    const double start = now();
    for (int i = 0; i < COMMITS; i++)
        side->commit(state, count);
    const double time = now() - start;
    for (size_t i = 0; i < count; i++)
        expected[i] += COMMITS;
    check(side, state, expected);
    return time / COMMITS;
}

static int compare_times(const void *left, const void *right)
{
    const double a = *(const double *)left, b = *(const double *)right;
    return (a > b) - (a < b);
}

static double median(double *times)
{
    qsort(times, ROUNDS, sizeof times[0], compare_times);
    return times[ROUNDS / 2];
}

/* A number with a comma before each three digits, as in docs/PERFORMANCE.md. */
static void print_grouped(unsigned long number)
{
    if (number < 1000) {
        printf("%lu", number);
    } else {
        print_grouped(number / 1000);
        printf(",%03lu", number % 1000);
    }
}

static void print_table(double medians[][COUNTS])
{
    printf("| A commit that adds 1 to K counters |");
    for (int c = 0; c < COUNTS; c++)
        printf(" K %zu, ns |", counts[c]);
    for (int c = 0; c < COUNTS; c++)
        printf(" settled / this, K %zu |", counts[c]);
    printf("\n|---|");
    for (int c = 0; c < 2 * COUNTS; c++)
        printf("---:|");
    for (int s = 0; s < SIDES; s++) {
        printf("\n| %s |", sides[s]->name);
        for (int c = 0; c < COUNTS; c++) {
            putchar(' ');
            print_grouped((unsigned long)(medians[s][c] + 0.5));
            printf(" |");
        }
        for (int c = 0; c < COUNTS; c++)
            printf(" %.2f |", medians[0][c] / medians[s][c]);
    }
    puts("\n");
    for (int s = 0; s < SIDES; s++)
        printf("- %s: %s\n", sides[s]->name, sides[s]->how);
}

int main(int argc, char **argv)
{
    static double times[SIDES][ROUNDS], medians[SIDES][COUNTS];
    static uint64_t expected[SIDES][COUNTERS];
    void *states[SIDES];
    char path[4096];
    if (argc != 2) {
        fputs("usage: compare FOLDER\n", stderr);
        return 2;
    }
    for (int s = 0; s < SIDES; s++) {
        if (snprintf(path, sizeof path, "%s/%d", argv[1], s) >= (int)sizeof path)
            fail(argv[1], "too long a name");
        states[s] = sides[s]->open(path);
        check(sides[s], states[s], expected[s]);
    }
    for (int c = 0; c < COUNTS; c++) {
        for (int r = -1; r < ROUNDS; r++) /* the first one is not counted */
            for (int i = 0; i < SIDES; i++) {
                const int s = (r + 1 + i) % SIDES;
                const double time = turn(sides[s], states[s], counts[c], expected[s]);
                if (r >= 0)
                    times[s][r] = time;
            }
        for (int s = 0; s < SIDES; s++)
            medians[s][c] = median(times[s]);
    }
    print_table(medians);
    for (int s = 0; s < SIDES; s++)
        sides[s]->close(states[s]);
    return fflush(stdout) == 0 ? 0 : 1;
}
