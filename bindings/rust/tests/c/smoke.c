/* Every call from C, with the header: the two-lane scenario of the specification, a mark, a drain, the lag limit, a settled lane, a long transaction, an image of the former length
 * taken over, and a few refusals.
 * Prints the line that failed, or `ok`. */
#include "expect.h"
#include "vandzulge.h"

#include <stdio.h>
#include <string.h>

#define WORDS 2
#define LANES 2
#define SLOTS 34
#define LENGTH VANDZULGE_IMAGE_WORDS(WORDS, LANES, SLOTS)
#define FORMER VANDZULGE_FORMER_WORDS(WORDS, LANES, SLOTS)

#if LENGTH != 143 || FORMER != 139 || LENGTH != FORMER + VANDZULGE_TRAILER_WORDS
#error "the two lengths"
#endif
#if VANDZULGE_IMAGE_WORDS(VANDZULGE_WORDS_MAX, VANDZULGE_LANES_MAX, VANDZULGE_SLOTS_MAX) != VANDZULGE_IMAGE_WORDS_MAX
#error "the greatest image"
#endif
#if VANDZULGE_FORMER_WORDS(VANDZULGE_WORDS_MAX, VANDZULGE_LANES_MAX, VANDZULGE_SLOTS_MAX) != VANDZULGE_FORMER_WORDS_MAX
#error "the greatest image of the former length"
#endif

static uint64_t cache[LENGTH], nvm[LENGTH], record[VANDZULGE_RECORD_WORDS], answer[VANDZULGE_ANSWER_WORDS];
static uint8_t flags[LENGTH];

#define SIZES WORDS, LANES, SLOTS
#define LAG VANDZULGE_LAG_MAX
#define BUFFERS cache, LENGTH, nvm, LENGTH, flags, LENGTH
#define FORMER_BUFFERS cache, FORMER, nvm, FORMER, flags, FORMER
#define RECORD record, VANDZULGE_RECORD_WORDS
#define ANSWER answer, VANDZULGE_ANSWER_WORDS

static int answers(uint64_t a, uint64_t b, uint64_t c, uint64_t d)
{
    return answer[0] == a && answer[1] == b && answer[2] == c && answer[3] == d;
}

static int ends_with_trailer(const uint64_t *image)
{
    return image[FORMER] == WORDS && image[FORMER + 1] == LANES && image[FORMER + 2] == SLOTS && image[FORMER + 3] == FORMER;
}

/* power is cut: cache, flags and record are lost */
static void lose(void)
{
    memset(cache, 0x55, sizeof cache);
    memset(flags, 0xff, sizeof flags);
    memset(record, 0x55, sizeof record);
}

int main(void)
{
    const uint64_t start[WORDS] = {0, 0};
    const uint64_t copy[4] = {2, 1, 0, 0}, set[4] = {1, 0, 0, 2}, set_other[4] = {1, 1, 0, 5}, pass[8] = {5, 0, 0, 1, 1, 0, 0, 9}, poke[8] = {5, 0, 0, 1, 4, 0, 0, 9};
    uint64_t data[WORDS], many[VANDZULGE_LONG_TXN_WORDS_MAX + 4];
    size_t i;

    EXPECT(vandzulge_format(WORDS, LANES, 33, LAG, start, WORDS, BUFFERS, RECORD) == 1);
    EXPECT(vandzulge_format(SIZES, LAG + 2, start, WORDS, BUFFERS, RECORD) == 16);
    EXPECT(vandzulge_format(SIZES, LAG, start, WORDS, BUFFERS, RECORD) == 0);
    EXPECT(record[VANDZULGE_RECORD_LAG] == LAG);
    EXPECT(vandzulge_log(SIZES, BUFFERS, RECORD, ANSWER, 0, pass, 8) == 0 && answers(0, 0, 0, 0));
    EXPECT(vandzulge_log(SIZES, BUFFERS, RECORD, ANSWER, 0, poke, 8) == 5 && answers(0, 0, 0, 0));
    EXPECT(vandzulge_log(SIZES, BUFFERS, RECORD, ANSWER, 1, copy, 4) == 0 && answers(1, 2, 0, 0));
    EXPECT(vandzulge_log(SIZES, BUFFERS, RECORD, ANSWER, 0, set, 4) == 0 && answers(1, 4, 0, 0));
    EXPECT(vandzulge_log(SIZES, BUFFERS, RECORD, ANSWER, 0, set, 4) == 6 && answers(1, 4, 0, 0));
    EXPECT(vandzulge_redo(SIZES, BUFFERS, RECORD, ANSWER, 0) == 0 && answers(1, 6, 0, 0));
    EXPECT(vandzulge_redo(SIZES, BUFFERS, RECORD, ANSWER, 0) == 7);
    EXPECT(vandzulge_redo(SIZES, BUFFERS, RECORD, ANSWER, 1) == 0 && answers(0, 0, 0, 0));
    EXPECT(vandzulge_validate(SIZES, BUFFERS, RECORD, ANSWER, 1, poke, 8) == 5);
    EXPECT(vandzulge_validate(SIZES, BUFFERS, RECORD, ANSWER, 1, copy, 4) == 0 && answers(1, 8, 0, 0));
    EXPECT(vandzulge_log(SIZES, BUFFERS, RECORD, ANSWER, 1, copy, 4) == 0 && answers(1, 10, 0, 0));
    EXPECT(cache[1] == 2 && cache[2] == 2);
    for (i = 0; i < LENGTH; i++)
        EXPECT(vandzulge_write_back(SIZES, BUFFERS, i) == 0);
    EXPECT(vandzulge_write_back(SIZES, BUFFERS, LENGTH) == 4);

    lose();
    EXPECT(vandzulge_recover(SIZES, LAG, BUFFERS, RECORD, ANSWER, VANDZULGE_NO_LIMIT) == 1);
    EXPECT(vandzulge_recover_read(LAG, cache, FORMER, nvm, LENGTH, flags, LENGTH, RECORD, ANSWER, VANDZULGE_NO_LIMIT) == 1);
    EXPECT(vandzulge_recover_read(LAG, BUFFERS, RECORD, ANSWER, 2) == 0 && answers(0, 0, 0, 0));
    EXPECT(vandzulge_recover_read(LAG, BUFFERS, RECORD, ANSWER, VANDZULGE_NO_LIMIT) == 0 && answers(2, 6, 3, 0));
    EXPECT(nvm[0] == 10 && nvm[1] == 0 && nvm[2] == 0 && memcmp(cache, nvm, sizeof cache) == 0);
    EXPECT(ends_with_trailer(nvm));
    EXPECT(record[0] == 10 && record[1] == 10);
    EXPECT(vandzulge_recover_read(LAG, BUFFERS, RECORD, ANSWER, VANDZULGE_NO_LIMIT) == 0 && answers(1, 0, 0, 0));
    nvm[3] = 9; /* of an entry's two words one has reached the memory */
    EXPECT(vandzulge_recover_read(LAG, BUFFERS, RECORD, ANSWER, VANDZULGE_NO_LIMIT) == 0 && answers(1, 0, 0, 1));

    EXPECT(vandzulge_mark(SIZES, BUFFERS, RECORD, ANSWER, 0) == 0 && answers(0, 12, 0, 0));
    EXPECT(vandzulge_log(SIZES, BUFFERS, RECORD, ANSWER, 0, set, 4) == 0 && answers(1, 14, 0, 0));
    EXPECT(vandzulge_validate(SIZES, BUFFERS, RECORD, ANSWER, 0, copy, 4) == 0 && answers(0, 0, 0, 0));
    EXPECT(vandzulge_drain(SIZES, BUFFERS, RECORD, 0) == 0);
    EXPECT(vandzulge_drain(SIZES, BUFFERS, RECORD, LANES) == 3);
    EXPECT(vandzulge_drain(SIZES, BUFFERS, record, VANDZULGE_RECORD_WORDS - 1, 0) == 1);
    for (i = 0; i < LENGTH; i++)
        EXPECT(flags[i] == 0);

    /* the same without its trailer is an image of the former length: recovered with its sizes given, used, recovered again, and moved to the new form */
    lose();
    EXPECT(vandzulge_recover_read(LAG, FORMER_BUFFERS, RECORD, ANSWER, VANDZULGE_NO_LIMIT) == 14);
    EXPECT(vandzulge_recover(SIZES, LAG, FORMER_BUFFERS, RECORD, ANSWER, VANDZULGE_NO_LIMIT) == 0 && answers(2, 14, 1, 0));
    EXPECT(vandzulge_log(SIZES, FORMER_BUFFERS, RECORD, ANSWER, 0, set, 4) == 0 && answers(1, 16, 0, 0));
    EXPECT(vandzulge_redo(SIZES, FORMER_BUFFERS, RECORD, ANSWER, 0) == 0 && answers(1, 18, 0, 0));
    EXPECT(vandzulge_mark(SIZES, FORMER_BUFFERS, RECORD, ANSWER, 0) == 0 && answers(0, 20, 0, 0));
    EXPECT(record[8] == 1 && record[9] == 18); /* lane 0's floor is the commit's, until the mark is drained */
    EXPECT(vandzulge_drain(SIZES, FORMER_BUFFERS, RECORD, 0) == 0);
    EXPECT(record[8] == 0 && record[9] == 0);
    EXPECT(vandzulge_write_back(SIZES, FORMER_BUFFERS, FORMER) == 4);
    EXPECT(vandzulge_format(SIZES, LAG, start, WORDS, FORMER_BUFFERS, RECORD) == 1);
    lose();
    EXPECT(vandzulge_recover(SIZES, LAG, FORMER_BUFFERS, RECORD, ANSWER, VANDZULGE_NO_LIMIT) == 0 && answers(1, 0, 0, 0));
    data[0] = nvm[1];
    data[1] = nvm[2];
    EXPECT(data[0] == 2 && data[1] == 0);
    lose();
    memset(nvm, 0x55, sizeof nvm);
    EXPECT(vandzulge_format(SIZES, LAG, data, WORDS, BUFFERS, RECORD) == 0);
    EXPECT(ends_with_trailer(cache) && ends_with_trailer(nvm));
    EXPECT(vandzulge_recover_read(LAG, BUFFERS, RECORD, ANSWER, VANDZULGE_NO_LIMIT) == 0 && answers(1, 0, 0, 0));
    EXPECT(nvm[1] == 2 && nvm[2] == 0);

    /* with the lag limit 2, lane 1 holds a transaction at 2 and lane 0 is marked: the next Log, at 6, is refused until lane 1 is marked and drained */
    EXPECT(vandzulge_recover_read(VANDZULGE_LAG_MIN - 1, BUFFERS, RECORD, ANSWER, VANDZULGE_NO_LIMIT) == 16);
    EXPECT(vandzulge_recover_read(VANDZULGE_LAG_MIN, BUFFERS, RECORD, ANSWER, VANDZULGE_NO_LIMIT) == 0 && answers(1, 0, 0, 0));
    EXPECT(vandzulge_log(SIZES, BUFFERS, RECORD, ANSWER, 1, copy, 4) == 0 && answers(1, 2, 0, 0));
    EXPECT(vandzulge_mark(SIZES, BUFFERS, RECORD, ANSWER, 0) == 0 && answers(0, 4, 0, 0));
    EXPECT(vandzulge_log(SIZES, BUFFERS, RECORD, ANSWER, 0, set, 4) == 15 && answers(0, 4, 0, 0));
    EXPECT(vandzulge_log(SIZES, BUFFERS, RECORD, ANSWER, 0, set, 0) == 15 && answers(0, 4, 0, 0));
    EXPECT(vandzulge_mark(SIZES, BUFFERS, RECORD, ANSWER, 1) == 0 && answers(1, 6, 0, 0));
    EXPECT(vandzulge_drain(SIZES, BUFFERS, RECORD, 1) == 0);
    EXPECT(vandzulge_log(SIZES, BUFFERS, RECORD, ANSWER, 0, set_other, 4) == 0 && answers(1, 8, 0, 0));

    /* the empty transaction settles lane 0 when that holds nothing any more; its commit, at 10, is kept from the next drain on */
    EXPECT(vandzulge_log(SIZES, BUFFERS, RECORD, ANSWER, 0, set, 0) == 6 && answers(1, 8, 0, 0));
    EXPECT(vandzulge_validate(SIZES, BUFFERS, RECORD, ANSWER, 0, set, 0) == 5);
    EXPECT(vandzulge_redo(SIZES, BUFFERS, RECORD, ANSWER, 0) == 0 && answers(1, 10, 0, 0));
    EXPECT(vandzulge_log(SIZES, BUFFERS, RECORD, ANSWER, 0, set, 0) == 0 && answers(0, 12, 0, 0));
    EXPECT(record[8] == 1 && record[9] == 10);
    EXPECT(vandzulge_drain(SIZES, BUFFERS, RECORD, 0) == 0);
    EXPECT(record[8] == 0 && record[9] == 0);
    lose();
    EXPECT(vandzulge_recover_read(LAG, BUFFERS, RECORD, ANSWER, VANDZULGE_NO_LIMIT) == 0 && answers(1, 0, 0, 0));
    EXPECT(nvm[0] == 12 && nvm[1] == 2 && nvm[2] == 5);

    /* a long transaction of 16 writes, the longest that 34 slots take: 1 is added to word 1 sixteen times */
    for (i = 0; i < VANDZULGE_LONG_TXN_WORDS_MAX + 4; i += 4) {
        many[i] = 3;
        many[i + 1] = many[i + 2] = 1;
        many[i + 3] = 1;
    }
    EXPECT(vandzulge_continue(SIZES, BUFFERS, RECORD, ANSWER, 0) == 7);
    EXPECT(vandzulge_lock(SIZES, BUFFERS, RECORD, ANSWER, 0, many, 0) == 5);
    EXPECT(vandzulge_lock(SIZES, BUFFERS, RECORD, ANSWER, 0, many, VANDZULGE_LONG_TXN_WORDS_MAX + 4) == 5);
    EXPECT(vandzulge_lock(SIZES, BUFFERS, RECORD, ANSWER, 0, many, VANDZULGE_LONG_TXN_WORDS_MAX) == 12);
    EXPECT(vandzulge_lock(SIZES, BUFFERS, RECORD, ANSWER, 0, many, 64) == 0 && answers(16, 14, 0, 0));
    EXPECT(record[VANDZULGE_RECORD_LOCK] == 1 && record[VANDZULGE_RECORD_LOCK + 3] == 16);
    EXPECT(vandzulge_lock(SIZES, BUFFERS, RECORD, ANSWER, 1, many, 4) == 11);
    EXPECT(vandzulge_log(SIZES, BUFFERS, RECORD, ANSWER, 1, set, 4) == 11);
    EXPECT(vandzulge_mark(SIZES, BUFFERS, RECORD, ANSWER, 0) == 11);
    EXPECT(vandzulge_continue(SIZES, BUFFERS, RECORD, ANSWER, 1) == 11 && answers(16, 14, 0, 0));
    EXPECT(vandzulge_continue(SIZES, BUFFERS, RECORD, ANSWER, 0) == 0 && answers(16, 14, 0, 0));
    EXPECT(vandzulge_drain(SIZES, BUFFERS, RECORD, 1) == 0);
    EXPECT(cache[2] == 5);
    EXPECT(vandzulge_continue(SIZES, BUFFERS, RECORD, ANSWER, 0) == 0 && answers(0, 14, 0, 0));
    EXPECT(cache[2] == 21 && record[1] == 14 && record[VANDZULGE_RECORD_LOCK] == 0);
    EXPECT(vandzulge_continue(SIZES, BUFFERS, RECORD, ANSWER, 0) == 7);
    EXPECT(vandzulge_log(SIZES, BUFFERS, RECORD, ANSWER, 0, set, 0) == 0 && answers(0, 16, 0, 0));
    EXPECT(vandzulge_drain(SIZES, BUFFERS, RECORD, 0) == 0);
    lose();
    EXPECT(vandzulge_recover_read(LAG, BUFFERS, RECORD, ANSWER, VANDZULGE_NO_LIMIT) == 0 && answers(1, 0, 0, 0));
    EXPECT(nvm[1] == 2 && nvm[2] == 21);

    nvm[0] = 3;
    EXPECT(vandzulge_recover(SIZES, 0, FORMER_BUFFERS, RECORD, ANSWER, VANDZULGE_NO_LIMIT) == 16);
    EXPECT(vandzulge_recover(SIZES, LAG, FORMER_BUFFERS, RECORD, ANSWER, VANDZULGE_NO_LIMIT) == 10);
    EXPECT(vandzulge_recover_read(LAG, BUFFERS, RECORD, ANSWER, VANDZULGE_NO_LIMIT) == 10);
    nvm[LENGTH - 1]++;
    EXPECT(vandzulge_recover_read(LAG, BUFFERS, RECORD, ANSWER, VANDZULGE_NO_LIMIT) == 14);
    puts("ok");
    return 0;
}
