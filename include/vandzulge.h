/* Vandzulge: a transactional store for persistent memory. Link with libvandzulge.a (x86-64; written by `rt lib` in crates/vandzulge).
 * First what a new user needs, then the reference. docs/INTEGRATION.md is the long form of the first part; examples/counters.c is a whole program to copy.
 *
 * ==== Quick start
 * The store keeps W data words of 64 bits in memory that survives without power. Transactions change them, and after a power cut each transaction stands whole or not at all. The
 * calls are lent four buffers, which have their names in struct vz_store:
 *   nvm      the persistent memory, which is all that survives
 *   cache    a copy of it in RAM, which the calls read and change; vz_word(&store, i) is its data word i
 *   flags    in RAM, a byte for each word: which lanes have changed it in the cache and not yet drained it to nvm
 *   record   in RAM: the clock, and what each lane is doing
 *
 *   #define LENGTH VANDZULGE_IMAGE_WORDS(16, 1, 64)                             // 16 data words, 1 lane, 64 log slots
 *   static uint64_t cache[LENGTH], record[VANDZULGE_RECORD_WORDS];
 *   static uint8_t flags[LENGTH];
 *   struct vz_store store = {.words = 16, .lanes = 1, .slots = 64, .length = LENGTH, .cache = cache, .nvm = nvm, .flags = flags, .record = record};
 *   const uint64_t start[16] = {0}, add[] = {VZ_ADD(0, 0, 1), VZ_ADD(1, 1, 1)}; // word 0 := word 0 + 1, word 1 := word 1 + 1: both or none
 *   struct vz_recovered found = {0};
 *   struct vz_commit commit = {0};
 *
 *   vz_format(&store, VANDZULGE_LAG_MAX, start);                                // once, where nvm is new
 *   vz_recover_read(&store, VANDZULGE_LAG_MAX, VANDZULGE_NO_LIMIT, &found);     // at every other power-up, before any other call
 *   vz_log(&store, 0, add, VZ_LENGTH(add), NULL);                               // on lane 0: the old values go to the log
 *   vz_redo(&store, 0, &commit);                                                // the new ones to the cache: committed, but a power cut may still undo it
 *   vz_settle(&store, 0, NULL);                                                 // a mark behind the commit
 *   vz_drain(&store, 0);                                                        // from here on no power cut undoes it: vz_is_safe(&store, commit.stamp)
 *
 * Each returns VANDZULGE_TAKEN, which is 0, or why it was refused; look at it after every call. enum vandzulge_refusal says for each number what to do.
 *
 * ==== When a commit can no longer be lost
 * A drain alone does NOT make a commit safe: after Log, Redo, Drain and a power cut it is undone. What makes it safe:
 *   1. Log, then Redo. Where Redo does not commit, there was a commit since the Log (stale): Validate with the same transaction. Where that does not commit either, the
 *      transaction would now write other words, or over other values (changed): begin again with Log.
 *   2. Settle the lane (vz_settle, which is a Log of no words), or Mark it where it may hold a transaction, which Mark drops. Once behind many commits is enough.
 *   3. Drain the lane, and see that its stores are persistent.
 * With one lane this is all. With several, another lane holds a commit back while it has a floor that is not above the commit's timestamp: until it has logged something later
 * and is drained, or is settled (or marked) and drained. vz_is_safe says whether a commit is safe; "What a power cut can lose", below, says why.
 *
 * ==== On a board
 * cache, flags and record are plain RAM, and lost with power. nvm is mapped so that an aligned 64-bit store to it is whole, also where power fails (the memory has the old word
 * or the new one), and such stores reach the memory in the code's order: an uncached, device or strongly ordered mapping. Every store to nvm but Format's is one aligned 64-bit
 * store; Format hands parts of nvm to memcpy and memset. The order: a step stores the words whose flag bit of its lane is set, before it changes the cache; recovery stores the entries
 * undone, then the base word, then the log words in rising order, each only where it is not 0 yet, and then changes the cache. It stores to no trailer.
 * The library has no fences and flushes no processor cache. Where a processor cache or a buffer stands in between, the caller flushes and fences:
 *   - All stores of a call are to be persistent before the next call begins, and before a commit counts as safe. Within one step, drain or write-back any order will do: it
 *     stores a word at most once, a step only in its drain, and a drain of which power lets any of the words through is one that the theorem covers (docs/THEOREM.md).
 *   - Recovery's stores are to become persistent one by one, in the code's order. Where the memory does not keep that order, recover a copy: keep in RAM what nvm holds when
 *     power comes back; for limit 1, 2, 3, .. lend recovery, as nvm, a new copy of that; after each call the copy differs from nvm in one word at most: store this one to nvm,
 *     and make it persistent; go on until recovery has finished, and then lend nvm itself again. To lend nvm itself with limit 1, 2, 3, .. is NOT enough: each call makes the
 *     earlier stores anew, so that a word which is undone twice has for a moment the first of these two values again, and the base word, behind which nothing is undone any more,
 *     may become persistent in that moment.
 * Format is not safe against power cuts: have a sign of your own that one is complete, as the example has in the name of its file. A trailer is no sign.
 * Stack: 27 KB for recovery, 7 for Lock, 6 for Format, less than 3 for every other call. docs/PERFORMANCE.md has the time that each call takes.
 *
 * ==== What the caller owes
 * At every power-up recovery comes first, until it has finished, before any other call but Format. Every call gets the sizes and buffers as the last one left them: nobody else
 * touches them during a call, nor writes them between calls. No null pointer, also where a length is 0 (but where a vz_ function puts its answer, NULL is no answer wanted); each
 * pointer has its length in elements, aligned; a buffer that is written overlaps no other one. All else is checked: any words are taken as a record, transaction or image.
 *
 * ==== Reference
 * Every function returns 0 where the call was taken, else the number of its refusal. After a refusal all is as it was, record and answer too. The library has no heap, no threads
 * and no global state; it calls nothing but memcpy and memset, to which only Format hands a part of nvm.
 *
 * What each call is lent, with W = words (1 to 1,024), T = lanes (1 to 8), N = slots a lane (34 to 256):
 *   cache, nvm   the cached image and the non-volatile memory, VANDZULGE_IMAGE_WORDS(W, T, N) words each: base word, data words, each lane's log, and the trailer,
 *                four last words that tell W, T, N and how many words stand before these four; or VANDZULGE_FORMER_WORDS(W, T, N) words each, without a trailer
 *   flags        one byte for each image word, the trailer's too; bit L: lane L has flushed this word
 *   record       VANDZULGE_RECORD_WORDS words that Format or a finished recovery makes and the calls keep: clock, last commit, then 40 words a lane (VANDZULGE_RECORD_LANE):
 *                phase (0 idle), first slot, count, timestamp, next slot, wrap bit, floor (0 none), floor's value, 16 pairs of word number and value; then the lag limit
 *                (word VANDZULGE_RECORD_LAG); then the lock (word VANDZULGE_RECORD_LOCK: 0 free), its lane, timestamp, count of pairs, how many of them are logged, how many
 *                are written, and its 64 pairs. A taken call leaves all but the 64 pairs in normal form: a phase, floor or lock word that is set becomes 1, words that say nothing 0, in lanes
 *                not in use too. The 64 pairs are written by Lock, all of them, those that it does not need as 0, 0, and made 0 by Format and a finished recovery
 *   max_lag      the lag limit, an even number from VANDZULGE_LAG_MIN to VANDZULGE_LAG_MAX, given to Format and to each recovery
 *   answer       VANDZULGE_ANSWER_WORDS words
 *   txn          a transaction: 4 words an instruction (code, a, b, k), 1 to 16 instructions, for Lock 1 to 64; unused fields are 0, a and b are data word numbers. Log also takes
 *                the empty one
 *                1 SET a := k   2 COPY a := [b]   3 ADD a := [b] + k   5 SKIP the next k (1 to 15) if [b] is 0
 *                4 was POKE, word [b] mod W := k, and is withdrawn: Log, Validate and Lock refuse it with 5 wherever it stands, also where SKIP would pass over it.
 *                A lane that holds one, logged by an earlier library: Redo commits it unless it is stale, Mark drops it, and Validate with it is refused
 *
 * Lengths: cache, nvm and flags of a call have the same one, else it is refused with 1. Format takes the new length, VANDZULGE_IMAGE_WORDS, and recovery with sizes given the
 * former one, VANDZULGE_FORMER_WORDS. Recovery without sizes takes any, and refuses with 14 what has no trailer that agrees. Every other call takes either.
 * Format writes the trailer; after that only a write-back of one of its words stores to it, and stores what is there. So a formatted store is recovered from its nvm and the
 * length of that alone, by vandzulge_recover_read.
 *
 * Images of the former length come from libraries that knew no trailer. They are taken over as they are: recover one with vandzulge_recover, its sizes given, and go on with
 * buffers of the former length for as long as you like; each later start gives the sizes again. To move it to the new form, once: after a finished recovery copy its W data words
 * (words 1 to W), and Format buffers of the new length with them as start words; timestamps begin again. Format is not safe against power cuts: keep the old image until the
 * new one is complete, of which a trailer is no sign.
 * Nothing in an image says which form it has; the call used decides, so the caller must know. The last four words of an image of the former length can happen to look like a
 * trailer, of other sizes: vandzulge_recover_read then takes them for one, and destroys that image. And vandzulge_recover with sizes that are not the image's, whose former
 * length it happens to have, takes its words for what they are not, a trailer for log words, and destroys it as well.
 *
 * What a power cut can lose. Recovery looks in each lane's log in nvm for the newest timestamp that has all its entries. The lane gives this timestamp, or nothing where it is a
 * mark, which closes no entries. The least that is given is the boundary: all sequences at or above it are undone, those of marked lanes too, and commits below it stay. Where no
 * lane gives one, nothing is undone and every commit stays.
 * In the record each lane has a floor or none: at no cut does the lane give less than its floor, and without one it gives nothing. So a commit is safe from then on, at every later
 * cut, once each lane that has a floor has it above the commit's timestamp. (This and what follows in this paragraph is proved of stores from Format on.)
 *   A drain of the lane, also the one that each of its steps begins with, makes the floor the newest timestamp in the lane's log, where there is one, and ends the floor where that
 *   is a mark. Where a lane has no floor, the next timestamp that Log, Mark or a part of a long transaction (below) appends sets it; a mark's own is then the floor until it is
 *   drained.
 *   A drain alone does not make a commit safe: the floor of its lane is then the commit's own timestamp, and what is at the boundary is undone. A Mark and then a Drain of the lane
 *   end the floor; a later logged transaction and then a Drain raise it above the commit.
 *   A lane that is drained after a Mark, or after a Log of the empty transaction (below), and of which no step was called in between or since, delays nobody: from that drain on
 *   the commits of the other lanes become safe by those lanes' own steps and drains alone. The next timestamp that is appended to its log gives it a floor again.
 *   A Log of the empty transaction settles its lane: it drains the lane and appends a mark, as Mark does on an idle lane. Use it where a piece of work is done, and then Drain: from
 *   one later drain of that lane on, also the one that a step of it begins with, a cut loses nothing that was committed before the lane was settled, by whichever lane, as long as
 *   every other lane that has a floor at the cut has it above the commit's timestamp. It differs from Mark in that it drops nothing: where the lane holds a transaction it is refused
 *   with 6. And the lag limit binds it, with 15.
 *
 * The lag limit, max_lag, is how far a cut can go back. Timestamps go up in steps of 2. When a Log or a Lock is taken with timestamp s, no cut before the next start (Format, or a finished
 * recovery) has a boundary below s - max_lag: every commit with a timestamp below that is kept. So a cut takes at most max_lag / 2 of the commits made before the last Log or Lock that took
 * a timestamp. Those made since then come on top: they are of transactions that lanes held at that time, or of the one that took the lock then, at most one a lane.
 *   Log sees to it: it is refused with 15 where its timestamp, the clock plus 2, would be more than max_lag above the least floor, floors as after a drain of its own lane. Where no
 *   lane has a floor the limit does not bind, and a cut loses nothing: after a start, or after Mark and Drain of every lane. It binds a Log that settles its lane, and Lock, which take a
 *   timestamp too. It never stops a Log of instructions that write nothing, nor Redo, Validate, Mark or Drain.
 *   What to do on 15: Drain the lane of that Log, so that the floors in the record are those that count. Then Mark and Drain the lane with the least floor, and call Log again; where
 *   it is still 15, do so with the lane that has the least floor now. Each time a floor ends, so T times are enough. Mark drops a transaction that its lane holds: where it is to be
 *   committed, Redo or Validate comes first. (Proved, from Format on, is the bound by s - max_lag; the two counts
 *   follow from it and from the rules of the calls; that such a Mark is never refused with 9 itself is tested.)
 *   A small limit means more marks; 2^32 practically never binds. The limit is in the record and not in the image: each recovery is given one, which may be another than before.
 *
 * Long transactions, of up to 64 instructions, run under a lock, of which the store has one. vandzulge_lock runs the transaction, keeps its writes in the record and takes the lock and
 * a timestamp; it changes neither the cache nor, but for its drain, nvm. vandzulge_continue on that lane is then the next step, until it answers that no writes are left. Its steps
 * go by parts of 16 writes, the last part of 1 to 16: by turns one logs a part, as Log does, and one writes it to the cache. So with n writes there are 2 * ceil(n / 16) steps.
 *   All parts have the timestamp of the lock. The step that writes the last part makes it the last commit and frees the lock. Until then the cache shows the parts written so far.
 *   After a power cut, in any of the steps too, recovery leaves all of the transaction or none of it, all only after the last step, and then by the rules above: with the lock's
 *   timestamp as that of the commit. The lock itself is gone with the record. (Proved of stores from Format on.)
 *   While the lock is held every other step is refused with 11, also on the lock's own lane: Log, Redo, Validate, Mark, and Lock. Drains and write-backs go on; Format and recovery
 *   free the lock. No step is stopped by a spent clock or for want of slots: Lock is refused with 8, 15 or 9 in advance. For 9 it counts a slot for each instruction, whether it will
 *   write or not, and one for each sixteen begun; more than N - 17 of these is 12, so that 64 instructions need N of at least 85.
 *   A Lock that writes nothing takes no lock and no timestamp, but drains its lane.
 *   A lane that holds a transaction keeps it meanwhile. After the commit its Redo is stale, and Validate, or Log after a Mark, is the way on.
 *
 * Refusals: enum vandzulge_refusal has them. The lowest number wins, but 11 and 12 come between 7 and 8, 14 and 16 before 10, in this order, and 15 before 9.
 * What recovery may need, for 9: the sequences that are not below the least floor, floors as after the drain that Log, Mark or Lock begins with; none where no lane has a floor.
 *
 * Costs are given in passes: over the flags or the image (its whole length), over one lane's log (N slots). Calls with a record check the lanes in use and the lock in it, and
 * store what they change; the lock's 64 pairs are read where the lock is held, and written by Lock alone.
 */
#ifndef VANDZULGE_H
#define VANDZULGE_H

#include <stdbool.h>
#include <stddef.h>
#include <stdint.h>

#define VANDZULGE_VERSION_MAJOR 0
#define VANDZULGE_VERSION_MINOR 1
#define VANDZULGE_VERSION_PATCH 0
#define VANDZULGE_VERSION "0.1.0"

#define VANDZULGE_RECORD_WORDS 457
#define VANDZULGE_RECORD_LANE(lane) (2 + 40 * (lane))
#define VANDZULGE_RECORD_LAG 322
#define VANDZULGE_RECORD_LOCK 323
#define VANDZULGE_ANSWER_WORDS 4
#define VANDZULGE_TXN_WORDS_MAX 64
#define VANDZULGE_LONG_TXN_WORDS_MAX 256
#define VANDZULGE_WORDS_MAX 1024
#define VANDZULGE_LANES_MAX 8
#define VANDZULGE_SLOTS_MIN 34
#define VANDZULGE_SLOTS_MAX 256
#define VANDZULGE_LAG_MIN 2
#define VANDZULGE_LAG_MAX ((uint64_t)1 << 32)
#define VANDZULGE_FORMER_WORDS(words, lanes, slots) (1 + (words) + 2 * (lanes) * (slots))
#define VANDZULGE_FORMER_WORDS_MAX 5121
#define VANDZULGE_TRAILER_WORDS 4
#define VANDZULGE_IMAGE_WORDS(words, lanes, slots) (VANDZULGE_FORMER_WORDS(words, lanes, slots) + VANDZULGE_TRAILER_WORDS)
#define VANDZULGE_IMAGE_WORDS_MAX 5125
#define VANDZULGE_NO_LIMIT SIZE_MAX

/* Why a call was refused, and what to do. Nothing was touched. The same call will be refused again until something else is done. */
enum vandzulge_refusal {
    VANDZULGE_TAKEN = 0,               /* the call was not refused */
    VANDZULGE_REFUSED_SIZE = 1,        /* a size out of range, or a slice of another length. The caller's fault: "What each call is lent" and "Lengths" say which */
    VANDZULGE_REFUSED_RECORD = 2,      /* a record field out of range. No Format or finished recovery made this record, or someone else wrote to it: recover, from nvm */
    VANDZULGE_REFUSED_LANE = 3,        /* lane not below T. The caller's fault */
    VANDZULGE_REFUSED_WORD = 4,        /* word not in the image. The caller's fault */
    VANDZULGE_REFUSED_TXN = 5,         /* transaction not as txn is to be, or empty and not for Log. The caller's fault; more than 16 instructions are for Lock */
    VANDZULGE_REFUSED_LOGGED = 6,      /* Log or Lock on a lane that holds a transaction. Redo or Validate that one, or drop it by Mark; or take another lane */
    VANDZULGE_REFUSED_IDLE = 7,        /* Redo or Validate on an idle lane: nothing was logged (a Log of count 0 writes nothing), or it is committed, changed or dropped.
                                        * Continue while the lock is free: the long transaction is committed, or none was begun */
    VANDZULGE_REFUSED_SPENT = 8,       /* the clock is spent: of 2^63 - 1 timestamps none is left. Format a new store with the data words as start words; they begin again */
    VANDZULGE_REFUSED_OVERWRITE = 9,   /* the append would overwrite a sequence that recovery may need. Mark and Drain the lane with the least floor, as on 15 */
    VANDZULGE_REFUSED_ODD_BASE = 10,   /* recovery finds an odd base word. nvm is damaged, no image of this store, or of other sizes than those given. Nothing was stored to it */
    VANDZULGE_REFUSED_LOCKED = 11,     /* Log, Redo, Validate, Mark or Lock while the lock is held, or Continue on another lane than the lock's. Continue till it is free */
    VANDZULGE_REFUSED_TOO_LONG = 12,   /* Lock of a transaction that counts more than N - 17 slots. Split it, or Format a store with more slots */
    VANDZULGE_REFUSED_TRAILER = 14,    /* recovery without sizes: fewer than four words, a size in the trailer out of range, or a fourth word or a length of nvm that does not agree
                                        * with these sizes. nvm is new (Format it), of another length, damaged, or of the former length (recover it with its sizes given) */
    VANDZULGE_REFUSED_LAG_PASSED = 15, /* Log, also one that settles its lane, or Lock would take a timestamp more than the lag limit above the least floor. "What to do on 15" */
    VANDZULGE_REFUSED_LAG_RANGE = 16   /* Format or recovery is given a lag limit that is odd, below 2 or above 2^32. The caller's fault */
};

/* Codes of instructions. 4 was POKE, which is withdrawn. */
enum vandzulge_opcode { VANDZULGE_SET = 1, VANDZULGE_COPY = 2, VANDZULGE_ADD = 3, VANDZULGE_SKIP = 5 };

/* One instruction, as four elements of a transaction: const uint64_t txn[] = {VZ_ADD(0, 0, 1), VZ_COPY(1, 0)}. */
#define VZ_SET(a, k) VANDZULGE_SET, (uint64_t)(a), 0, (uint64_t)(k)                 /* word a := k */
#define VZ_COPY(a, b) VANDZULGE_COPY, (uint64_t)(a), (uint64_t)(b), 0               /* word a := word b */
#define VZ_ADD(a, b, k) VANDZULGE_ADD, (uint64_t)(a), (uint64_t)(b), (uint64_t)(k)  /* word a := word b + k, modulo 2^64 */
#define VZ_SKIP(b, k) VANDZULGE_SKIP, 0, (uint64_t)(b), (uint64_t)(k)               /* pass over the next k instructions if word b is 0 */

/* How many elements an array has (an array, not a pointer). */
#define VZ_LENGTH(array) (sizeof(array) / sizeof((array)[0]))

#ifdef __cplusplus
extern "C" {
#endif

/* Format: a new store of W start words, of the new length, with this lag limit; the record's old words are not read. Refusals 1, 16.
 * Every word of cache, nvm and flags is written once. */
uint64_t vandzulge_format(size_t words, size_t lanes, size_t slots, uint64_t max_lag, const uint64_t *start, size_t start_len,
    uint64_t *cache, size_t cache_len, uint64_t *nvm, size_t nvm_len, uint8_t *flags, size_t flags_len, uint64_t *record, size_t record_len);

/* Write-back: copies one image word, of the trailer too, from cache to nvm. Refusals 1, 4. One word. Not between a power cut and the end of recovery. */
uint64_t vandzulge_write_back(size_t words, size_t lanes, size_t slots,
    const uint64_t *cache, size_t cache_len, uint64_t *nvm, size_t nvm_len, const uint8_t *flags, size_t flags_len, size_t word);

/* Drain: copies every word that the lane has flushed to nvm, clears its bits, and moves or ends its floor. Refusals 1 to 3. One pass over the flags, one over the lane's log.
 * Log, Redo, Validate, Mark, Lock and Continue begin with it. Where the slot before the lane's next one does not close its latest sequence alone, which calls seldom leave, the log is passed over up to
 * three times more, whatever it holds. */
uint64_t vandzulge_drain(size_t words, size_t lanes, size_t slots,
    const uint64_t *cache, size_t cache_len, uint64_t *nvm, size_t nvm_len, uint8_t *flags, size_t flags_len,
    uint64_t *record, size_t record_len, size_t lane);

/* Log: runs the transaction, leaves no change, and appends an entry a write and a timestamp to the lane's log.
 * Answer: count, timestamp, 0, 0; or 0, 0, 0, 0 where it writes nothing, and the lane stays idle. Refusals 1 to 3, 5, 6, 11, 8, 15, 9, the first of them in this order; 8, 15 and 9
 * not where it writes nothing. A drain, and a look at up to 33 slots of the lane's log.
 * Where txn_len is 0 it settles the lane: it appends a timestamp over no entries, and the lane stays idle. txn is not read then, but must not be null.
 * Answer: 0, timestamp, 0, 0; no timestamp is 0. Refusals 1 to 3, 6, 11, 8, 15, 9, the first of them in this order. A drain, and a look at 17 slots of the lane's log. */
uint64_t vandzulge_log(size_t words, size_t lanes, size_t slots,
    uint64_t *cache, size_t cache_len, uint64_t *nvm, size_t nvm_len, uint8_t *flags, size_t flags_len,
    uint64_t *record, size_t record_len, uint64_t *answer, size_t answer_len, size_t lane, const uint64_t *txn, size_t txn_len);

/* Redo: commits the logged transaction with the values that Log found.
 * Answer: 1, timestamp, 0, 0; or 0, 0, 0, 0 where there is a commit since (stale), and the lane stays logged. Refusals 1 to 3, 7, 11, 8. A drain. */
uint64_t vandzulge_redo(size_t words, size_t lanes, size_t slots,
    uint64_t *cache, size_t cache_len, uint64_t *nvm, size_t nvm_len, uint8_t *flags, size_t flags_len,
    uint64_t *record, size_t record_len, uint64_t *answer, size_t answer_len, size_t lane);

/* Validate: runs the transaction and commits it if it writes the words that were logged, over the values that were logged. The empty one is refused with 5.
 * Answer: 1, timestamp, 0, 0; or 0, 0, 0, 0 where it does not (changed), and the lane is idle. Refusals 1 to 3, 5, 7, 11, 8. A drain. */
uint64_t vandzulge_validate(size_t words, size_t lanes, size_t slots,
    uint64_t *cache, size_t cache_len, uint64_t *nvm, size_t nvm_len, uint8_t *flags, size_t flags_len,
    uint64_t *record, size_t record_len, uint64_t *answer, size_t answer_len, size_t lane, const uint64_t *txn, size_t txn_len);

/* Mark: appends a timestamp over no entries; a logged transaction of the lane is dropped. The next drain of the lane ends its floor.
 * Answer: 1 where one was dropped, else 0; timestamp; 0, 0. Refusals 1 to 3, 11, 8, 9. A drain, and a look at 17 slots of the lane's log. */
uint64_t vandzulge_mark(size_t words, size_t lanes, size_t slots,
    uint64_t *cache, size_t cache_len, uint64_t *nvm, size_t nvm_len, uint8_t *flags, size_t flags_len,
    uint64_t *record, size_t record_len, uint64_t *answer, size_t answer_len, size_t lane);

/* Lock: runs the transaction, of 1 to 64 instructions, leaves no change, keeps its writes in the record, and takes the lock and a timestamp. Nothing is logged yet.
 * Answer: count of writes, none of them made, timestamp, 0, 0; or 0, 0, 0, 0 where it writes nothing: the lock stays free, and a Continue would be refused. Refusals 1 to 3, 5, 6,
 * 11, 12, 8, 15, 9, the first of them in this order; 8, 15 and 9 not where it writes nothing. A drain, and a look at up to 84 slots of the lane's log. */
uint64_t vandzulge_lock(size_t words, size_t lanes, size_t slots,
    uint64_t *cache, size_t cache_len, uint64_t *nvm, size_t nvm_len, uint8_t *flags, size_t flags_len,
    uint64_t *record, size_t record_len, uint64_t *answer, size_t answer_len, size_t lane, const uint64_t *txn, size_t txn_len);

/* Continue: the next step of the long transaction, on the lane that has the lock: logs its next part, of up to 16 writes, or writes the part that was logged last.
 * Answer: how many writes are not yet made, the same number as before where a part was logged, 0 where the transaction is committed and the lock free; timestamp, that of the lock;
 * 0, 0. Refusals 1 to 3, 7, 11. A drain. */
uint64_t vandzulge_continue(size_t words, size_t lanes, size_t slots,
    uint64_t *cache, size_t cache_len, uint64_t *nvm, size_t nvm_len, uint8_t *flags, size_t flags_len,
    uint64_t *record, size_t record_len, uint64_t *answer, size_t answer_len, size_t lane);

/* Recovery with sizes given, after a power cut, of an image of the former length: from nvm alone, with at most `limit` stores to it, the words at one boundary; the record's old
 * words are not read, and a finished one has the lag limit given.
 * Answer: 0, 0, 0, 0 where stores remain (cut; the record is untouched and lost: recover again, or format; each recovery begins anew and counts from its first
 * store, so that the same limit leads no further); 1, 0, 0, torn where no lane gave a boundary, and this call undid
 * nothing (one that was cut before it may have); 2, boundary, undone, torn. undone: how many log entries were undone. torn: how many of the TN log slots were torn in nvm as this
 * call found it: they held something, but no whole entry or timestamp. A cut leaves a torn slot where one of its two words had not reached the memory, and so does a recovery cut
 * short between two words of a slot that it clears; by itself it is no sign of damage. A log word that is 0 already counts as stored. Refusals 1, 16, 10. One pass over the logs, one
 * over the image, a store for each entry undone, and for each sequence undone, or timestamp that is not complete, at most 8 steps in a tree and a look at each lane:
 * docs/PERFORMANCE.md has the worst images. */
uint64_t vandzulge_recover(size_t words, size_t lanes, size_t slots, uint64_t max_lag,
    uint64_t *cache, size_t cache_len, uint64_t *nvm, size_t nvm_len, uint8_t *flags, size_t flags_len,
    uint64_t *record, size_t record_len, uint64_t *answer, size_t answer_len, size_t limit);

/* Recovery without sizes, of an image with a trailer: the same with the sizes that the last four words of nvm tell. Those are read and never stored to; where recovery finished,
 * cache equals nvm, the trailer too, and all flags are 0. The sizes for the calls that follow are nvm[nvm_len - 4], nvm[nvm_len - 3] and nvm[nvm_len - 2].
 * Refusals 1 (cache or flags of another length than nvm, record or answer of a wrong one), 14, 16, 10, the first of them in this order. Answers and costs as above. */
uint64_t vandzulge_recover_read(uint64_t max_lag, uint64_t *cache, size_t cache_len, uint64_t *nvm, size_t nvm_len, uint8_t *flags, size_t flags_len,
    uint64_t *record, size_t record_len, uint64_t *answer, size_t answer_len, size_t limit);

#ifdef __cplusplus
}
#endif

/* ==== The same calls with a handle: sizes and buffers by their names. */
struct vz_store {
    size_t words, lanes, slots; /* W, T, N; vz_recover_read sets them */
    size_t length;              /* of cache and nvm in words, of flags in bytes: vz_image_length(words, lanes, slots), or the former length */
    uint64_t *cache;            /* the copy in RAM */
    uint64_t *nvm;              /* the persistent memory */
    uint8_t *flags;             /* in RAM */
    uint64_t *record;           /* in RAM, VANDZULGE_RECORD_WORDS words */
};

/* The answers. A refused call leaves them untouched; NULL may be given where one is not wanted. */
struct vz_logged {
    uint64_t count; /* of writes; 0: it writes nothing, and the lane stays idle */
    uint64_t stamp; /* 0 where it writes nothing */
};

struct vz_commit {
    bool committed; /* false: Redo is stale, and the lane keeps the transaction; or Validate finds it changed, and the lane is idle */
    uint64_t stamp; /* of the commit, for vz_is_safe; 0, which is not safe, where there is none */
};

struct vz_marked {
    bool dropped; /* a transaction that the lane held */
    uint64_t stamp;
};

struct vz_progress {
    uint64_t left;  /* writes not yet made. After Lock 0: it writes nothing, and the lock is free. After Continue 0: committed, and the lock is free */
    uint64_t stamp; /* of the lock, and of the commit; 0 where Lock writes nothing */
};

struct vz_recovered {
    bool finished;     /* false: the limit cut it, stores remain; recover again, with a greater limit or none. The rest is then false and 0 */
    bool has_boundary; /* false: this call undid nothing (one that was cut before it may have) */
    uint64_t boundary; /* commits with this timestamp or a greater one are undone; 0 where there is none */
    uint64_t undone;   /* log entries undone */
    uint64_t torn;     /* log slots that held something, but nothing whole, as this call found nvm; by itself no sign of damage */
};

/* What a refusal means, in a few words; there is a text for every number. */
static inline const char *vz_refusal_text(uint64_t number)
{
    switch (number) {
    case VANDZULGE_TAKEN: return "taken";
    case VANDZULGE_REFUSED_SIZE: return "a size out of range, or a buffer of a wrong length";
    case VANDZULGE_REFUSED_RECORD: return "a record field out of range";
    case VANDZULGE_REFUSED_LANE: return "no such lane";
    case VANDZULGE_REFUSED_WORD: return "no such word in the image";
    case VANDZULGE_REFUSED_TXN: return "no well-formed transaction";
    case VANDZULGE_REFUSED_LOGGED: return "the lane holds a transaction";
    case VANDZULGE_REFUSED_IDLE: return "the lane holds no transaction, or the lock is free";
    case VANDZULGE_REFUSED_SPENT: return "the clock is spent";
    case VANDZULGE_REFUSED_OVERWRITE: return "it would overwrite log entries that recovery may need";
    case VANDZULGE_REFUSED_ODD_BASE: return "an odd base word: damaged, or no image";
    case VANDZULGE_REFUSED_LOCKED: return "a long transaction holds the lock";
    case VANDZULGE_REFUSED_TOO_LONG: return "the long transaction does not fit the lane's log";
    case VANDZULGE_REFUSED_TRAILER: return "no trailer that agrees with the length given: another length, not formatted, damaged, or of the former length";
    case VANDZULGE_REFUSED_LAG_PASSED: return "the lag limit is reached: mark and drain the lane with the least floor";
    case VANDZULGE_REFUSED_LAG_RANGE: return "a lag limit out of range, or odd";
    default: return "unknown number";
    }
}

/* Words of cache and nvm, and bytes of flags, for these sizes. */
static inline size_t vz_image_length(size_t words, size_t lanes, size_t slots)
{
    return VANDZULGE_IMAGE_WORDS(words, lanes, slots);
}

/* As vandzulge_format; start has store->words words. */
static inline enum vandzulge_refusal vz_format(struct vz_store *store, uint64_t max_lag, const uint64_t *start)
{
    return (enum vandzulge_refusal)vandzulge_format(store->words, store->lanes, store->slots, max_lag, start, store->words,
        store->cache, store->length, store->nvm, store->length, store->flags, store->length, store->record, VANDZULGE_RECORD_WORDS);
}

/* As vandzulge_write_back. Drains do all that is needed; this is for a cache that writes words back when it likes. */
static inline enum vandzulge_refusal vz_write_back(struct vz_store *store, size_t word)
{
    return (enum vandzulge_refusal)vandzulge_write_back(store->words, store->lanes, store->slots,
        store->cache, store->length, store->nvm, store->length, store->flags, store->length, word);
}

/* As vandzulge_drain. */
static inline enum vandzulge_refusal vz_drain(struct vz_store *store, size_t lane)
{
    return (enum vandzulge_refusal)vandzulge_drain(store->words, store->lanes, store->slots,
        store->cache, store->length, store->nvm, store->length, store->flags, store->length, store->record, VANDZULGE_RECORD_WORDS, lane);
}

/* As vandzulge_log; txn_len counts words, four an instruction, not instructions: VZ_LENGTH(txn) of an array. With none it settles, as vz_settle does. */
static inline enum vandzulge_refusal vz_log(struct vz_store *store, size_t lane, const uint64_t *txn, size_t txn_len, struct vz_logged *logged)
{
    uint64_t answer[VANDZULGE_ANSWER_WORDS];
    const enum vandzulge_refusal refusal = (enum vandzulge_refusal)vandzulge_log(store->words, store->lanes, store->slots,
        store->cache, store->length, store->nvm, store->length, store->flags, store->length, store->record, VANDZULGE_RECORD_WORDS,
        answer, VANDZULGE_ANSWER_WORDS, lane, txn, txn_len);
    if (refusal == VANDZULGE_TAKEN && logged != NULL) {
        logged->count = answer[0];
        logged->stamp = answer[1];
    }
    return refusal;
}

/* Settles the lane, which must hold no transaction: vandzulge_log with no words. After the next drain of the lane what was committed before is safe, as far as this lane goes. */
static inline enum vandzulge_refusal vz_settle(struct vz_store *store, size_t lane, uint64_t *stamp)
{
    const uint64_t none = 0;
    struct vz_logged settled;
    const enum vandzulge_refusal refusal = vz_log(store, lane, &none, 0, &settled);
    if (refusal == VANDZULGE_TAKEN && stamp != NULL)
        *stamp = settled.stamp;
    return refusal;
}

/* As vandzulge_redo. Look at commit->committed: a stale transaction is not refused, and not committed. */
static inline enum vandzulge_refusal vz_redo(struct vz_store *store, size_t lane, struct vz_commit *commit)
{
    uint64_t answer[VANDZULGE_ANSWER_WORDS];
    const enum vandzulge_refusal refusal = (enum vandzulge_refusal)vandzulge_redo(store->words, store->lanes, store->slots,
        store->cache, store->length, store->nvm, store->length, store->flags, store->length, store->record, VANDZULGE_RECORD_WORDS,
        answer, VANDZULGE_ANSWER_WORDS, lane);
    if (refusal == VANDZULGE_TAKEN && commit != NULL) {
        commit->committed = answer[0] != 0;
        commit->stamp = answer[1];
    }
    return refusal;
}

/* As vandzulge_validate, with the transaction that was logged; txn_len counts words. Look at commit->committed. */
static inline enum vandzulge_refusal vz_validate(struct vz_store *store, size_t lane, const uint64_t *txn, size_t txn_len, struct vz_commit *commit)
{
    uint64_t answer[VANDZULGE_ANSWER_WORDS];
    const enum vandzulge_refusal refusal = (enum vandzulge_refusal)vandzulge_validate(store->words, store->lanes, store->slots,
        store->cache, store->length, store->nvm, store->length, store->flags, store->length, store->record, VANDZULGE_RECORD_WORDS,
        answer, VANDZULGE_ANSWER_WORDS, lane, txn, txn_len);
    if (refusal == VANDZULGE_TAKEN && commit != NULL) {
        commit->committed = answer[0] != 0;
        commit->stamp = answer[1];
    }
    return refusal;
}

/* As vandzulge_mark. */
static inline enum vandzulge_refusal vz_mark(struct vz_store *store, size_t lane, struct vz_marked *marked)
{
    uint64_t answer[VANDZULGE_ANSWER_WORDS];
    const enum vandzulge_refusal refusal = (enum vandzulge_refusal)vandzulge_mark(store->words, store->lanes, store->slots,
        store->cache, store->length, store->nvm, store->length, store->flags, store->length, store->record, VANDZULGE_RECORD_WORDS,
        answer, VANDZULGE_ANSWER_WORDS, lane);
    if (refusal == VANDZULGE_TAKEN && marked != NULL) {
        marked->dropped = answer[0] != 0;
        marked->stamp = answer[1];
    }
    return refusal;
}

/* As vandzulge_lock; txn_len counts words. Where progress->left is not 0, call vz_continue on this lane until it is. */
static inline enum vandzulge_refusal vz_lock(struct vz_store *store, size_t lane, const uint64_t *txn, size_t txn_len, struct vz_progress *progress)
{
    uint64_t answer[VANDZULGE_ANSWER_WORDS];
    const enum vandzulge_refusal refusal = (enum vandzulge_refusal)vandzulge_lock(store->words, store->lanes, store->slots,
        store->cache, store->length, store->nvm, store->length, store->flags, store->length, store->record, VANDZULGE_RECORD_WORDS,
        answer, VANDZULGE_ANSWER_WORDS, lane, txn, txn_len);
    if (refusal == VANDZULGE_TAKEN && progress != NULL) {
        progress->left = answer[0];
        progress->stamp = answer[1];
    }
    return refusal;
}

/* As vandzulge_continue. */
static inline enum vandzulge_refusal vz_continue(struct vz_store *store, size_t lane, struct vz_progress *progress)
{
    uint64_t answer[VANDZULGE_ANSWER_WORDS];
    const enum vandzulge_refusal refusal = (enum vandzulge_refusal)vandzulge_continue(store->words, store->lanes, store->slots,
        store->cache, store->length, store->nvm, store->length, store->flags, store->length, store->record, VANDZULGE_RECORD_WORDS,
        answer, VANDZULGE_ANSWER_WORDS, lane);
    if (refusal == VANDZULGE_TAKEN && progress != NULL) {
        progress->left = answer[0];
        progress->stamp = answer[1];
    }
    return refusal;
}

/* The four words of a recovery's answer. */
static inline void vz_recovered_from(const uint64_t *answer, struct vz_recovered *recovered)
{
    recovered->finished = answer[0] != 0;
    recovered->has_boundary = answer[0] == 2;
    recovered->boundary = answer[1];
    recovered->undone = answer[2];
    recovered->torn = answer[3];
}

/* As vandzulge_recover, of an image of the former length, with the handle's sizes; limit: how many stores at most, VANDZULGE_NO_LIMIT for all of them. */
static inline enum vandzulge_refusal vz_recover(struct vz_store *store, uint64_t max_lag, size_t limit, struct vz_recovered *recovered)
{
    uint64_t answer[VANDZULGE_ANSWER_WORDS];
    const enum vandzulge_refusal refusal = (enum vandzulge_refusal)vandzulge_recover(store->words, store->lanes, store->slots, max_lag,
        store->cache, store->length, store->nvm, store->length, store->flags, store->length, store->record, VANDZULGE_RECORD_WORDS,
        answer, VANDZULGE_ANSWER_WORDS, limit);
    if (refusal == VANDZULGE_TAKEN && recovered != NULL)
        vz_recovered_from(answer, recovered);
    return refusal;
}

/* As vandzulge_recover_read, of an image with a trailer. Where it was taken, the handle's sizes are those of the trailer, whatever they were before: compare
 * them with those that you want, since a store of other sizes can have the same length. */
static inline enum vandzulge_refusal vz_recover_read(struct vz_store *store, uint64_t max_lag, size_t limit, struct vz_recovered *recovered)
{
    uint64_t answer[VANDZULGE_ANSWER_WORDS];
    const enum vandzulge_refusal refusal = (enum vandzulge_refusal)vandzulge_recover_read(max_lag,
        store->cache, store->length, store->nvm, store->length, store->flags, store->length, store->record, VANDZULGE_RECORD_WORDS,
        answer, VANDZULGE_ANSWER_WORDS, limit);
    if (refusal == VANDZULGE_TAKEN) {
        const uint64_t *trailer = store->nvm + (store->length - VANDZULGE_TRAILER_WORDS);
        store->words = (size_t)trailer[0];
        store->lanes = (size_t)trailer[1];
        store->slots = (size_t)trailer[2];
        if (recovered != NULL)
            vz_recovered_from(answer, recovered);
    }
    return refusal;
}

/* ==== What a caller reads of a store. After a power cut the record says nothing until recovery has finished. */

/* Cached data word i; 0 where there is none. Under the lock it may be one of a transaction that is not committed yet. */
static inline uint64_t vz_word(const struct vz_store *store, size_t i)
{
    return i < store->words && i + 1 < store->length ? store->cache[1 + i] : 0;
}

/* The newest timestamp that was taken. */
static inline uint64_t vz_clock(const struct vz_store *store)
{
    return store->record[0];
}

/* The timestamp of the last commit; after a start the clock's. */
static inline uint64_t vz_last_commit(const struct vz_store *store)
{
    return store->record[1];
}

/* The lag limit that the last start was given. */
static inline uint64_t vz_max_lag(const struct vz_store *store)
{
    return store->record[VANDZULGE_RECORD_LAG];
}

/* Is the lock held? Then also by which lane, and with which timestamp; each where it is not NULL. */
static inline bool vz_locked(const struct vz_store *store, size_t *lane, uint64_t *stamp)
{
    const uint64_t *lock = store->record + VANDZULGE_RECORD_LOCK;
    if (lock[0] == 0)
        return false;
    if (lane != NULL)
        *lane = (size_t)lock[1];
    if (stamp != NULL)
        *stamp = lock[2];
    return true;
}

/* Does the lane hold a transaction that is logged and not yet committed or dropped? false where there is no such lane. */
static inline bool vz_holds(const struct vz_store *store, size_t lane)
{
    return lane < store->lanes && lane < VANDZULGE_LANES_MAX && store->record[VANDZULGE_RECORD_LANE(lane)] != 0;
}

/* Has the lane a floor? Then also which, where floor is not NULL: no power cut undoes, because of this lane, what is below it. false where there is no such lane. */
static inline bool vz_floor(const struct vz_store *store, size_t lane, uint64_t *floor)
{
    if (lane >= store->lanes || lane >= VANDZULGE_LANES_MAX || store->record[VANDZULGE_RECORD_LANE(lane) + 6] == 0)
        return false;
    if (floor != NULL)
        *floor = store->record[VANDZULGE_RECORD_LANE(lane) + 7];
    return true;
}

/* The lane with the least floor, of equal ones the lower, which holds the others back; false where no lane has a floor. On refusals 9 and 15 this is the lane to Mark and Drain,
 * after a Drain of the lane of that call, so that the floors are those that count; Mark drops a transaction that it holds. */
static inline bool vz_least_floor(const struct vz_store *store, size_t *lane)
{
    uint64_t least = 0, floor;
    bool found = false;
    size_t i;
    for (i = 0; i < VANDZULGE_LANES_MAX; i++)
        if (vz_floor(store, i, &floor) && (!found || floor < least)) {
            found = true;
            least = floor;
            *lane = i;
        }
    return found;
}

/* Can the commit with this timestamp, and every earlier one, no longer be lost? To be asked of commits made since the last start (Format, or a finished recovery): of those before
 * it recovery has decided. It is so, and stays so until the next Format, if the timestamp is not above the clock, while the lock is held below the lock's, and below the floor of
 * each lane that has one. 0, the timestamp of no commit, is not safe. For this all stores to nvm so far must be persistent. Proved of stores from Format on (docs/THEOREM.md, "When a commit can no longer be lost"), not of
 * those that began as an image of the former length. */
static inline bool vz_is_safe(const struct vz_store *store, uint64_t stamp)
{
    uint64_t bound;
    size_t lane;
    if (stamp == 0 || stamp > vz_clock(store) || (vz_locked(store, NULL, &bound) && stamp >= bound))
        return false;
    for (lane = 0; lane < VANDZULGE_LANES_MAX; lane++)
        if (vz_floor(store, lane, &bound) && stamp >= bound)
            return false;
    return true;
}

#endif
