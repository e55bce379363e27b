/* The handle of the header: every wrapper and accessor, when a commit can no longer be lost, what a refusal leaves, what to do on 9 and 15, and recovery of copies.
 * CARGO_PKG_VERSION is given by the test that compiles it. Prints the line that failed, or `ok`. */
#include "expect.h"
#include "vandzulge.h"

#include <stdio.h>
#include <string.h>

#define WORDS 4
#define LANES 2
#define SLOTS 85
#define LENGTH VANDZULGE_IMAGE_WORDS(WORDS, LANES, SLOTS)
#define FORMER VANDZULGE_FORMER_WORDS(WORDS, LANES, SLOTS)
#define LAG VANDZULGE_LAG_MAX
#define ALL VANDZULGE_NO_LIMIT

#define RUN(part)            \
    do {                     \
        if ((part) != 0)     \
            return 1;        \
    } while (0)

static uint64_t cache[LENGTH], nvm[LENGTH], record[VANDZULGE_RECORD_WORDS];
static uint8_t flags[LENGTH];
static const uint64_t start[WORDS] = {7, 7, 0, 0};
static const uint64_t add[] = {VZ_ADD(0, 0, 1), VZ_ADD(1, 1, 1)}, other[] = {VZ_SET(2, 9)}, copy[] = {VZ_COPY(3, 2)};

static struct vz_store store = {.words = WORDS, .lanes = LANES, .slots = SLOTS, .length = LENGTH, .cache = cache, .nvm = nvm, .flags = flags, .record = record};

/* power is cut: only nvm is left, and nobody knows the sizes */
static void cut(void)
{
    memset(cache, 0x55, sizeof cache);
    memset(flags, 0xff, sizeof flags);
    memset(record, 0x55, sizeof record);
    store.words = store.lanes = store.slots = 0;
}

static int has_words(uint64_t a, uint64_t b, uint64_t c, uint64_t d)
{
    return vz_word(&store, 0) == a && vz_word(&store, 1) == b && vz_word(&store, 2) == c && vz_word(&store, 3) == d;
}

static int constants(void)
{
    const uint64_t txn[] = {VZ_SET(1, 2), VZ_COPY(3, 4), VZ_ADD(5, 6, 7), VZ_SKIP(8, 9)}, words[] = {1, 1, 0, 2, 2, 3, 4, 0, 3, 5, 6, 7, 5, 0, 8, 9};
    char version[32];
    uint64_t number, earlier;
    EXPECT(VZ_LENGTH(txn) == 16 && memcmp(txn, words, sizeof words) == 0);
    snprintf(version, sizeof version, "%d.%d.%d", VANDZULGE_VERSION_MAJOR, VANDZULGE_VERSION_MINOR, VANDZULGE_VERSION_PATCH);
    EXPECT(strcmp(version, VANDZULGE_VERSION) == 0 && strcmp(version, CARGO_PKG_VERSION) == 0);
    EXPECT(vz_image_length(WORDS, LANES, SLOTS) == LENGTH);
    EXPECT(VANDZULGE_REFUSED_TOO_LONG == 12 && VANDZULGE_REFUSED_TRAILER == 14 && VANDZULGE_REFUSED_LAG_RANGE == 16);
    for (number = 0; number <= 16; number++)
        for (earlier = 0; earlier < number; earlier++)
            EXPECT(strcmp(vz_refusal_text(number), vz_refusal_text(earlier)) != 0);
    EXPECT(strcmp(vz_refusal_text(13), vz_refusal_text(17)) == 0 && strcmp(vz_refusal_text(UINT64_MAX), vz_refusal_text(17)) == 0);
    return 0;
}

/* a drain does not make a commit safe; to settle and drain its lane does */
static int lost_and_kept(void)
{
    struct vz_logged logged;
    struct vz_commit commit;
    struct vz_recovered found;
    uint64_t floor, stamp;
    size_t i;

    EXPECT(vz_format(&store, LAG, start) == VANDZULGE_TAKEN && vz_clock(&store) == 0 && vz_max_lag(&store) == LAG);
    EXPECT(vz_log(&store, 0, add, VZ_LENGTH(add), &logged) == VANDZULGE_TAKEN && logged.count == 2 && logged.stamp == 2);
    EXPECT(vz_holds(&store, 0) && !vz_holds(&store, 1));
    EXPECT(vz_redo(&store, 0, &commit) == VANDZULGE_TAKEN && commit.committed && commit.stamp == 4);
    EXPECT(!vz_holds(&store, 0) && vz_clock(&store) == 4 && vz_last_commit(&store) == 4);
    EXPECT(!vz_is_safe(&store, 4));
    EXPECT(vz_drain(&store, 0) == VANDZULGE_TAKEN && vz_floor(&store, 0, &floor) && floor == 4);
    EXPECT(has_words(8, 8, 0, 0) && nvm[1] == 8 && !vz_is_safe(&store, 4) && vz_is_safe(&store, 2));
    cut();
    EXPECT(vz_recover_read(&store, LAG, ALL, &found) == VANDZULGE_TAKEN && found.finished);
    EXPECT(found.has_boundary && found.boundary == 4 && found.undone == 2 && found.torn == 0);
    EXPECT(store.words == WORDS && store.lanes == LANES && store.slots == SLOTS && has_words(7, 7, 0, 0));

    EXPECT(vz_log(&store, 0, add, VZ_LENGTH(add), &logged) == VANDZULGE_TAKEN && logged.count == 2 && logged.stamp == 6);
    EXPECT(vz_redo(&store, 0, &commit) == VANDZULGE_TAKEN && commit.stamp == 8);
    EXPECT(vz_settle(&store, 0, &stamp) == VANDZULGE_TAKEN && stamp == 10 && vz_clock(&store) == 10 && vz_last_commit(&store) == 8 && !vz_is_safe(&store, 8));
    EXPECT(vz_drain(&store, 0) == VANDZULGE_TAKEN && !vz_floor(&store, 0, &floor) && vz_is_safe(&store, 8));
    EXPECT(vz_is_safe(&store, 10) && !vz_is_safe(&store, 12));
    for (i = 0; i < LENGTH; i++)
        EXPECT(vz_write_back(&store, i) == VANDZULGE_TAKEN);
    EXPECT(vz_write_back(&store, LENGTH) == VANDZULGE_REFUSED_WORD);
    cut();
    EXPECT(vz_recover_read(&store, LAG, 1, &found) == VANDZULGE_TAKEN && !found.finished && !found.has_boundary);
    EXPECT(store.words == WORDS && record[0] == 0x5555555555555555);
    EXPECT(vz_recover_read(&store, LAG, ALL, &found) == VANDZULGE_TAKEN && found.finished && !found.has_boundary && found.undone == 0 && found.torn == 0);
    EXPECT(has_words(8, 8, 0, 0) && vz_clock(&store) == 10 && vz_last_commit(&store) == 10);
    return 0;
}

/* stale, then validated or changed; a lane that holds a transaction, logged before, keeps the other one's commits from being safe until it is marked and drained */
static int two_lanes(void)
{
    struct vz_commit commit, late;
    struct vz_marked marked;
    uint64_t floor;
    size_t least;

    EXPECT(vz_log(&store, 1, copy, VZ_LENGTH(copy), NULL) == VANDZULGE_TAKEN);
    EXPECT(vz_log(&store, 0, add, VZ_LENGTH(add), NULL) == VANDZULGE_TAKEN && vz_redo(&store, 0, &commit) == VANDZULGE_TAKEN && commit.committed);
    EXPECT(vz_redo(&store, 1, &late) == VANDZULGE_TAKEN && !late.committed && late.stamp == 0 && vz_holds(&store, 1) && !vz_is_safe(&store, late.stamp));
    EXPECT(vz_validate(&store, 1, copy, VZ_LENGTH(copy), &late) == VANDZULGE_TAKEN && late.committed && late.stamp == commit.stamp + 2);
    EXPECT(vz_log(&store, 1, copy, VZ_LENGTH(copy), NULL) == VANDZULGE_TAKEN);
    EXPECT(vz_validate(&store, 1, other, VZ_LENGTH(other), &late) == VANDZULGE_TAKEN && !late.committed && !vz_holds(&store, 1));
    EXPECT(vz_validate(&store, 1, other, VZ_LENGTH(other), NULL) == VANDZULGE_REFUSED_IDLE);

    EXPECT(vz_settle(&store, 0, NULL) == VANDZULGE_TAKEN && vz_settle(&store, 1, NULL) == VANDZULGE_TAKEN);
    EXPECT(vz_drain(&store, 0) == VANDZULGE_TAKEN && vz_drain(&store, 1) == VANDZULGE_TAKEN && vz_is_safe(&store, vz_last_commit(&store)));

    EXPECT(vz_log(&store, 1, copy, VZ_LENGTH(copy), NULL) == VANDZULGE_TAKEN);
    EXPECT(vz_log(&store, 0, add, VZ_LENGTH(add), NULL) == VANDZULGE_TAKEN && vz_redo(&store, 0, &commit) == VANDZULGE_TAKEN);
    EXPECT(vz_settle(&store, 0, NULL) == VANDZULGE_TAKEN && vz_drain(&store, 0) == VANDZULGE_TAKEN);
    EXPECT(!vz_floor(&store, 0, &floor) && vz_floor(&store, 1, &floor) && floor < commit.stamp && !vz_is_safe(&store, commit.stamp));
    EXPECT(vz_least_floor(&store, &least) && least == 1);
    record[VANDZULGE_RECORD_LANE(0) + 6] = 1; /* lane 0's floor, equal to lane 1's, and greater, and gone again */
    record[VANDZULGE_RECORD_LANE(0) + 7] = floor;
    EXPECT(vz_least_floor(&store, &least) && least == 0);
    record[VANDZULGE_RECORD_LANE(0) + 7] = floor + 2;
    EXPECT(vz_least_floor(&store, &least) && least == 1);
    record[VANDZULGE_RECORD_LANE(0) + 6] = record[VANDZULGE_RECORD_LANE(0) + 7] = 0;
    EXPECT(vz_settle(&store, 1, NULL) == VANDZULGE_REFUSED_LOGGED);
    EXPECT(vz_mark(&store, 1, &marked) == VANDZULGE_TAKEN && marked.dropped && marked.stamp == vz_clock(&store));
    EXPECT(vz_drain(&store, 1) == VANDZULGE_TAKEN && vz_is_safe(&store, commit.stamp));
    least = 99;
    EXPECT(!vz_least_floor(&store, &least) && least == 99);
    EXPECT(vz_mark(&store, 1, &marked) == VANDZULGE_TAKEN && !marked.dropped && vz_mark(&store, 1, NULL) == VANDZULGE_TAKEN);
    EXPECT(vz_drain(&store, 1) == VANDZULGE_TAKEN);
    return 0;
}

/* a long transaction of 38 writes: three parts, six steps; safe when its lane is settled and drained */
static int long_transaction(void)
{
    uint64_t many[4 * 38], stamp, word = vz_word(&store, 2);
    const uint64_t nothing[] = {VZ_SKIP(3, 1), VZ_SET(0, 0)};
    struct vz_progress progress;
    size_t i, lane = 99;

    for (i = 0; i < VZ_LENGTH(many); i += 4) {
        const uint64_t one[] = {VZ_ADD(2, 2, 1)};
        memcpy(many + i, one, sizeof one);
    }
    EXPECT(vz_lock(&store, 1, nothing, VZ_LENGTH(nothing), &progress) == VANDZULGE_TAKEN && progress.left == 0 && progress.stamp == 0 && !vz_locked(&store, NULL, NULL));
    EXPECT(vz_lock(&store, 0, many, VZ_LENGTH(many), &progress) == VANDZULGE_TAKEN && progress.left == 38);
    EXPECT(vz_locked(&store, &lane, &stamp) && lane == 0 && stamp == progress.stamp && stamp == vz_clock(&store) && vz_locked(&store, NULL, NULL));
    EXPECT(!vz_is_safe(&store, stamp) && vz_is_safe(&store, stamp - 2) && !vz_floor(&store, 0, NULL));
    for (i = 1; i <= 6; i++) {
        EXPECT(vz_locked(&store, NULL, NULL) && vz_log(&store, 1, add, VZ_LENGTH(add), NULL) == VANDZULGE_REFUSED_LOCKED);
        EXPECT(vz_continue(&store, 0, &progress) == VANDZULGE_TAKEN && progress.stamp == stamp);
        EXPECT(progress.left == (i < 2 ? 38u : i < 4 ? 22u : i < 6 ? 6u : 0u));
    }
    EXPECT(!vz_locked(&store, &lane, NULL) && vz_last_commit(&store) == stamp && vz_word(&store, 2) == word + 38 && !vz_is_safe(&store, stamp));
    EXPECT(vz_settle(&store, 0, NULL) == VANDZULGE_TAKEN && vz_drain(&store, 0) == VANDZULGE_TAKEN && vz_is_safe(&store, stamp));
    cut();
    EXPECT(vz_recover_read(&store, LAG, ALL, NULL) == VANDZULGE_TAKEN && vz_word(&store, 2) == word + 38);
    return 0;
}

/* what a refused call answers, and what there is no lane or word for */
static int untouched(void)
{
    struct vz_logged logged = {70, 71};
    struct vz_commit commit = {true, 72};
    struct vz_marked marked = {true, 73};
    struct vz_progress progress = {74, 75};
    struct vz_recovered found = {true, true, 76, 77, 78};
    uint64_t stamp = 79, floor = 80;
    size_t lane = 81;

    EXPECT(vz_log(&store, LANES, add, VZ_LENGTH(add), &logged) == VANDZULGE_REFUSED_LANE && logged.count == 70 && logged.stamp == 71);
    EXPECT(vz_log(&store, 0, add, 3, &logged) == VANDZULGE_REFUSED_TXN && logged.count == 70);
    EXPECT(vz_settle(&store, LANES, &stamp) == VANDZULGE_REFUSED_LANE && stamp == 79);
    EXPECT(vz_redo(&store, 0, &commit) == VANDZULGE_REFUSED_IDLE && vz_validate(&store, 0, add, VZ_LENGTH(add), &commit) == VANDZULGE_REFUSED_IDLE);
    EXPECT(commit.committed && commit.stamp == 72);
    EXPECT(vz_mark(&store, LANES, &marked) == VANDZULGE_REFUSED_LANE && marked.dropped && marked.stamp == 73);
    EXPECT(vz_lock(&store, 0, add, 0, &progress) == VANDZULGE_REFUSED_TXN && vz_continue(&store, 0, &progress) == VANDZULGE_REFUSED_IDLE);
    EXPECT(progress.left == 74 && progress.stamp == 75);
    EXPECT(vz_drain(&store, LANES) == VANDZULGE_REFUSED_LANE && vz_format(&store, 3, start) == VANDZULGE_REFUSED_LAG_RANGE);
    EXPECT(vz_recover_read(&store, 3, ALL, &found) == VANDZULGE_REFUSED_LAG_RANGE && vz_recover(&store, LAG, ALL, &found) == VANDZULGE_REFUSED_SIZE);
    store.length--;
    EXPECT(vz_recover_read(&store, LAG, ALL, &found) == VANDZULGE_REFUSED_TRAILER && store.words == WORDS && store.lanes == LANES && store.slots == SLOTS);
    store.length = 3;
    EXPECT(vz_recover_read(&store, LAG, ALL, &found) == VANDZULGE_REFUSED_TRAILER && vz_word(&store, 1) == cache[2] && vz_word(&store, 2) == 0);
    store.length = LENGTH;
    EXPECT(found.finished && found.has_boundary && found.boundary == 76 && found.undone == 77 && found.torn == 78);

    EXPECT(vz_log(&store, 0, add, VZ_LENGTH(add), NULL) == VANDZULGE_TAKEN && vz_floor(&store, 0, NULL) && vz_holds(&store, 0));
    EXPECT(!vz_locked(&store, &lane, &stamp) && lane == 81 && stamp == 79);
    EXPECT(!vz_floor(&store, LANES, &floor) && !vz_floor(&store, VANDZULGE_LANES_MAX, &floor) && !vz_floor(&store, SIZE_MAX, &floor) && floor == 80);
    EXPECT(!vz_holds(&store, LANES) && !vz_holds(&store, SIZE_MAX) && vz_word(&store, WORDS) == 0 && vz_word(&store, SIZE_MAX) == 0);
    store.lanes = store.words = SIZE_MAX; /* sizes that no call takes */
    record[VANDZULGE_RECORD_LAG] = record[VANDZULGE_RECORD_LAG + 6] = 1;
    EXPECT(!vz_floor(&store, VANDZULGE_LANES_MAX, &floor) && !vz_holds(&store, VANDZULGE_LANES_MAX) && vz_word(&store, LENGTH - 1) == 0 && vz_word(&store, SIZE_MAX) == 0);
    cut();
    EXPECT(vz_recover_read(&store, LAG, ALL, NULL) == VANDZULGE_TAKEN);
    return 0;
}

/* Where Log or Lock is refused with 9 or 15: drains its lane, and then marks and drains the lane with the least floor. False where no lane has a floor. */
static bool make_room(size_t lane)
{
    size_t least;
    return vz_drain(&store, lane) == VANDZULGE_TAKEN && vz_least_floor(&store, &least) && vz_mark(&store, least, NULL) == VANDZULGE_TAKEN
        && vz_drain(&store, least) == VANDZULGE_TAKEN;
}

static int room(void)
{
    enum vandzulge_refusal refusal;
    uint64_t many[4 * 64];
    size_t i;

    /* 9: lane 1 holds a transaction while lane 0 goes around its log */
    EXPECT(vz_log(&store, 1, copy, VZ_LENGTH(copy), NULL) == VANDZULGE_TAKEN);
    for (i = 0; (refusal = vz_log(&store, 0, add, VZ_LENGTH(add), NULL)) == VANDZULGE_TAKEN && i < SLOTS; i++)
        EXPECT(vz_redo(&store, 0, NULL) == VANDZULGE_TAKEN);
    EXPECT(refusal == VANDZULGE_REFUSED_OVERWRITE && i == SLOTS / 3 && make_room(0) && !vz_holds(&store, 1));
    EXPECT(vz_log(&store, 0, add, VZ_LENGTH(add), NULL) == VANDZULGE_TAKEN && vz_redo(&store, 0, NULL) == VANDZULGE_TAKEN);

    /* 9: a long transaction behind a long one in the same lane */
    for (i = 0; i < VZ_LENGTH(many); i += 4) {
        const uint64_t one[] = {VZ_ADD(2, 2, 1)};
        memcpy(many + i, one, sizeof one);
    }
    EXPECT(vz_lock(&store, 1, many, VZ_LENGTH(many), NULL) == VANDZULGE_TAKEN);
    while (vz_locked(&store, NULL, NULL))
        EXPECT(vz_continue(&store, 1, NULL) == VANDZULGE_TAKEN);
    for (i = 0; (refusal = vz_lock(&store, 1, many, VZ_LENGTH(many), NULL)) != VANDZULGE_TAKEN; i++)
        EXPECT(refusal == VANDZULGE_REFUSED_OVERWRITE && i < LANES && make_room(1));
    EXPECT(i == LANES && vz_locked(&store, NULL, NULL));
    while (vz_locked(&store, NULL, NULL))
        EXPECT(vz_continue(&store, 1, NULL) == VANDZULGE_TAKEN);

    /* 15: with the least lag limit lane 1's transaction stops lane 0 at once */
    cut();
    EXPECT(vz_recover_read(&store, VANDZULGE_LAG_MIN, ALL, NULL) == VANDZULGE_TAKEN && vz_max_lag(&store) == VANDZULGE_LAG_MIN);
    EXPECT(vz_log(&store, 1, copy, VZ_LENGTH(copy), NULL) == VANDZULGE_TAKEN && vz_mark(&store, 0, NULL) == VANDZULGE_TAKEN);
    EXPECT(vz_log(&store, 0, add, VZ_LENGTH(add), NULL) == VANDZULGE_REFUSED_LAG_PASSED && vz_settle(&store, 0, NULL) == VANDZULGE_REFUSED_LAG_PASSED);
    EXPECT(make_room(0) && vz_log(&store, 0, add, VZ_LENGTH(add), NULL) == VANDZULGE_TAKEN);
    return 0;
}

/* Recovery for a memory that does not keep the order of stores: of copies in RAM, with limit 1, 2, 3, ..; each time one word at most is stored to nvm. After each of these stores
 * the image, recovered at once, has the data words that it has in the end. A word that is undone twice is among them. */
static int recovery_of_copies(void)
{
    const uint64_t twice[] = {VZ_ADD(0, 0, 1), VZ_ADD(0, 0, 1), VZ_ADD(1, 1, 2)};
    static uint64_t found[LENGTH], ram[LENGTH], other_cache[LENGTH], other_nvm[LENGTH], other_record[VANDZULGE_RECORD_WORDS];
    static uint8_t other_flags[LENGTH];
    struct vz_store other_store = {.length = LENGTH, .cache = other_cache, .nvm = other_nvm, .flags = other_flags, .record = other_record};
    struct vz_recovered recovered = {0};
    size_t limit, i, stores = 0;

    EXPECT(vz_format(&store, LAG, start) == VANDZULGE_TAKEN);
    EXPECT(vz_log(&store, 0, twice, VZ_LENGTH(twice), NULL) == VANDZULGE_TAKEN && vz_redo(&store, 0, NULL) == VANDZULGE_TAKEN && vz_drain(&store, 0) == VANDZULGE_TAKEN);
    EXPECT(nvm[1] == 9 && nvm[2] == 9);
    cut();
    memcpy(found, nvm, sizeof found);
    store.nvm = ram;
    for (limit = 1; !recovered.finished; limit++) {
        size_t differ = 0;
        memcpy(ram, found, sizeof ram);
        EXPECT(vz_recover_read(&store, LAG, limit, &recovered) == VANDZULGE_TAKEN);
        for (i = 0; i < LENGTH; i++)
            if (nvm[i] != ram[i]) {
                nvm[i] = ram[i]; /* to be made persistent here */
                differ++;
            }
        EXPECT(differ <= 1);
        stores += differ;
        memcpy(other_nvm, nvm, sizeof nvm);
        EXPECT(vz_recover_read(&other_store, LAG, ALL, NULL) == VANDZULGE_TAKEN && memcmp(other_nvm + 1, start, sizeof start) == 0);
    }
    store.nvm = nvm;
    EXPECT(recovered.has_boundary && recovered.undone == 3 && stores == 3 + 1 + 8 && limit == 3 + 1 + 2 * LANES * SLOTS + 1);
    EXPECT(has_words(7, 7, 0, 0) && memcmp(cache, nvm, sizeof nvm) == 0 && memcmp(other_nvm, nvm, sizeof nvm) == 0);
    EXPECT(vz_log(&store, 0, add, VZ_LENGTH(add), NULL) == VANDZULGE_TAKEN);
    return 0;
}

/* the same image without its trailer, recovered with its sizes given */
static int former_length(void)
{
    struct vz_recovered found;
    struct vz_commit commit;

    EXPECT(vz_redo(&store, 0, NULL) == VANDZULGE_TAKEN && vz_drain(&store, 0) == VANDZULGE_TAKEN);
    cut();
    store.words = WORDS;
    store.lanes = LANES;
    store.slots = SLOTS;
    store.length = FORMER;
    EXPECT(vz_recover(&store, LAG, 2, &found) == VANDZULGE_TAKEN && !found.finished && found.boundary == 0);
    EXPECT(vz_recover(&store, LAG, ALL, &found) == VANDZULGE_TAKEN && found.finished && found.has_boundary && found.undone == 2 && has_words(7, 7, 0, 0));
    EXPECT(vz_log(&store, 1, add, VZ_LENGTH(add), NULL) == VANDZULGE_TAKEN && vz_redo(&store, 1, &commit) == VANDZULGE_TAKEN && commit.committed);
    EXPECT(vz_format(&store, LAG, start) == VANDZULGE_REFUSED_SIZE && vz_recover(&store, LAG, ALL, NULL) == VANDZULGE_TAKEN);
    nvm[0]++;
    EXPECT(vz_recover(&store, LAG, ALL, NULL) == VANDZULGE_REFUSED_ODD_BASE);
    return 0;
}

int main(void)
{
    RUN(constants());
    RUN(lost_and_kept());
    RUN(two_lanes());
    RUN(long_transaction());
    RUN(untouched());
    RUN(room());
    RUN(recovery_of_copies());
    RUN(former_length());
    puts("ok");
    return 0;
}
