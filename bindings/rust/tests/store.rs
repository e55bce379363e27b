//! The safe wrappers: every call and every answer by way of `Store`, with the two-lane scenario of the specification; the types that calls take; and what a store tells.

use vandzulge::raw::{self, LAG_WORD, LOCK_WORD, MAX_LONG_TXN_WORDS, MAX_TXN_WORDS};
use vandzulge::Instruction::{Add, Copy, Set, SkipIfZero};
use vandzulge::{
    former_words, image_words, Buffers, Instruction, Lock, Locked, Log, Mark, Progress, Recovery, Redo, Refusal, Sizes, Store, Validate, GREATEST_LAG,
    LEAST_LAG, MAX_FORMER_WORDS, MAX_IMAGE_WORDS, MAX_INSTRUCTIONS, MAX_LONG_INSTRUCTIONS, RECORD_WORDS,
};

/// A store's buffers, to look at and to spoil between two calls. Each call is that of a `Store` that is attached to them for it.
struct Lent {
    sizes: Sizes,
    cache: Vec<u64>,
    nvm: Vec<u64>,
    flags: Vec<u8>,
    record: Box<[u64; RECORD_WORDS]>,
}

impl Lent {
    fn buffers(&mut self) -> Buffers<'_> {
        Buffers { cache: &mut self.cache, nvm: &mut self.nvm, flags: &mut self.flags, record: &mut self.record }
    }

    /// What is done with the store that has started on these buffers.
    fn started<R>(&mut self, run: impl FnOnce(&mut Store) -> R) -> Result<R, Refusal> {
        let sizes = self.sizes;
        Ok(run(&mut Store::attach(&mut self.buffers(), sizes)?))
    }

    fn format(&mut self, max_lag: u64, start: &[u64]) -> Result<(), Refusal> {
        let sizes = self.sizes;
        Store::format(&mut self.buffers(), sizes, max_lag, start).map(|store| assert_eq!(store.sizes(), sizes))
    }

    /// Recovery, which tells the sizes.
    fn recover(&mut self, max_lag: u64) -> Result<Recovery, Refusal> {
        let (sizes, recovery) = Store::recover(&mut self.buffers(), max_lag).map(|(store, recovery)| (store.sizes(), recovery))?;
        self.sizes = sizes;
        Ok(recovery)
    }

    fn recover_within(&mut self, max_lag: u64, limit: usize) -> Result<Option<Recovery>, Refusal> {
        Ok(Store::recover_within(&mut self.buffers(), max_lag, limit)?.map(|(_, recovery)| recovery))
    }

    fn recover_former(&mut self, max_lag: u64) -> Result<Recovery, Refusal> {
        let sizes = self.sizes;
        Store::recover_former(&mut self.buffers(), sizes, max_lag).map(|(_, recovery)| recovery)
    }

    fn recover_former_within(&mut self, max_lag: u64, limit: usize) -> Result<Option<Recovery>, Refusal> {
        let sizes = self.sizes;
        Ok(Store::recover_former_within(&mut self.buffers(), sizes, max_lag, limit)?.map(|(_, recovery)| recovery))
    }

    fn write_back(&mut self, word: usize) -> Result<(), Refusal> {
        self.started(|store| store.write_back(word))?
    }

    fn drain(&mut self, lane: usize) -> Result<(), Refusal> {
        self.started(|store| store.drain(lane))?
    }

    fn log(&mut self, lane: usize, txn: &[Instruction]) -> Result<Log, Refusal> {
        self.started(|store| store.log(lane, txn))?
    }

    fn settle(&mut self, lane: usize) -> Result<u64, Refusal> {
        self.started(|store| store.settle(lane))?
    }

    fn redo(&mut self, lane: usize) -> Result<Redo, Refusal> {
        self.started(|store| store.redo(lane))?
    }

    fn validate(&mut self, lane: usize, txn: &[Instruction]) -> Result<Validate, Refusal> {
        self.started(|store| store.validate(lane, txn))?
    }

    fn mark(&mut self, lane: usize) -> Result<Mark, Refusal> {
        self.started(|store| store.mark(lane))?
    }

    fn lock(&mut self, lane: usize, txn: &[Instruction]) -> Result<Lock, Refusal> {
        self.started(|store| store.lock(lane, txn))?
    }

    fn proceed(&mut self, lane: usize) -> Result<Progress, Refusal> {
        self.started(|store| store.proceed(lane))?
    }

    /// The number of a raw call with these words as transaction and with so many slots given.
    fn raw_txn(&mut self, call: RawTxnCall, slots: usize, lane: usize, txn: &[u64]) -> u64 {
        let (words, lanes) = (self.sizes.words(), self.sizes.lanes());
        call(words, lanes, slots, &mut self.cache, &mut self.nvm, &mut self.flags, &mut *self.record, &mut [0; 4], lane, txn)
    }

    fn raw_log(&mut self, lane: usize, txn: &[u64]) -> u64 {
        self.raw_txn(raw::log, self.sizes.slots(), lane, txn)
    }

    fn raw_validate(&mut self, lane: usize, txn: &[u64]) -> u64 {
        self.raw_txn(raw::validate, self.sizes.slots(), lane, txn)
    }

    /// The number of a raw Redo or Mark.
    fn raw_step(&mut self, call: RawCall, lane: usize) -> u64 {
        let sizes = self.sizes;
        let Buffers { cache, nvm, flags, record } = self.buffers();
        call(sizes.words(), sizes.lanes(), sizes.slots(), cache, nvm, flags, record, &mut [0; 4], lane)
    }
}

type RawCall = fn(usize, usize, usize, &mut [u64], &mut [u64], &mut [u8], &mut [u64], &mut [u64], usize) -> u64;
type RawTxnCall = fn(usize, usize, usize, &mut [u64], &mut [u64], &mut [u8], &mut [u64], &mut [u64], usize, &[u64]) -> u64;

const fn sizes(words: usize, lanes: usize, slots: usize) -> Sizes {
    match Sizes::new(words, lanes, slots) {
        Ok(sizes) => sizes,
        Err(_) => panic!("sizes out of range"),
    }
}

/// Runs the test on buffers for a store of the given sizes, not formatted.
fn with_store(sizes: Sizes, test: impl FnOnce(&mut Lent)) {
    with_length(sizes, sizes.image_words(), test);
}

/// The same on buffers of the given length.
fn with_length(sizes: Sizes, length: usize, test: impl FnOnce(&mut Lent)) {
    test(&mut Lent { sizes, cache: vec![0; length], nvm: vec![0; length], flags: vec![0; length], record: Box::new([0; RECORD_WORDS]) });
}

/// Power is cut: cache, flags and record are lost.
fn cut_power(store: &mut Lent) {
    store.cache.fill(77);
    store.flags.fill(0xff);
    store.record.fill(99);
}

/// The lane's floor in the record.
fn floor(store: &Lent, lane: usize) -> Option<u64> {
    let words = &store.record[2 + 40 * lane..];
    (words[6] != 0).then_some(words[7])
}

/// Logs a transaction of one write and commits it, with this timestamp.
fn commit(store: &mut Lent, lane: usize, txn: &[Instruction], stamp: u64) {
    assert_eq!(store.log(lane, txn), Ok(Log::Logged { count: 1, stamp: stamp - 2 }));
    assert_eq!(store.redo(lane), Ok(Redo::Committed { stamp }));
}

/// All words that the store is lent, one after another.
fn all_words(store: &Lent) -> Vec<u64> {
    [&*store.cache, &*store.nvm, &*store.record].concat().into_iter().chain(store.flags.iter().map(|&flag| flag as u64)).collect()
}

/// Marks a lane that holds no transaction, with this timestamp.
fn mark(store: &mut Lent, lane: usize, stamp: u64) {
    assert_eq!(store.mark(lane), Ok(Mark { stamp, dropped: false }));
}

/// A finished recovery that found no torn slots.
fn finished(boundary: Option<u64>, undone: u64) -> Result<Recovery, Refusal> {
    Ok(Recovery { boundary, undone, torn: 0 })
}

const SIZES: Sizes = sizes(2, 2, 34);
const COPY_0_TO_1: [Instruction; 1] = [Copy { to: 1, from: 0 }];
const SET_0_TO_2: [Instruction; 1] = [Set { to: 0, value: 2 }];
const SET_0_TO_5: [Instruction; 1] = [Set { to: 0, value: 5 }];
const SET_1_TO_7: [Instruction; 1] = [Set { to: 1, value: 7 }];
const PASS_OVER: [Instruction; 2] = [SkipIfZero { word: 0, count: 1 }, Set { to: 0, value: 9 }];
/// Withdrawn: the word whose number is word 0 modulo W becomes 7. And the same where it is passed over if word 1 is 0.
const POKE: [u64; 4] = [4, 0, 0, 7];
const PASS_OVER_POKE: [u64; 12] = [5, 0, 1, 1, 4, 0, 0, 7, 1, 0, 0, 9];

#[test]
fn two_lanes_and_a_power_cut() {
    with_store(SIZES, |store| {
        assert_eq!(store.format(GREATEST_LAG, &[0, 0]), Ok(()));
        assert_eq!(store.log(1, &COPY_0_TO_1), Ok(Log::Logged { count: 1, stamp: 2 }));
        assert_eq!(store.log(0, &SET_0_TO_2), Ok(Log::Logged { count: 1, stamp: 4 }));
        assert_eq!(store.redo(0), Ok(Redo::Committed { stamp: 6 }));
        assert_eq!(store.redo(1), Ok(Redo::Stale));
        assert_eq!(store.validate(1, &COPY_0_TO_1), Ok(Validate::Committed { stamp: 8 }));
        assert_eq!(store.log(1, &COPY_0_TO_1), Ok(Log::Logged { count: 1, stamp: 10 }));
        for word in 0..SIZES.image_words() {
            assert_eq!(store.write_back(word), Ok(()));
        }
        assert_eq!(store.nvm[1..3], [2, 2]);
        cut_power(store);
        assert_eq!(store.recover_within(GREATEST_LAG, 1), Ok(None));
        assert_eq!(store.recover(GREATEST_LAG), Ok(Recovery { boundary: Some(6), undone: 3, torn: 0 }));
        assert_eq!((store.cache[1..3].to_vec(), store.nvm[1..3].to_vec()), (vec![0, 0], vec![0, 0]));
        assert_eq!((store.record[0], store.record[1]), (10, 10));
        assert_eq!(store.recover(GREATEST_LAG), Ok(Recovery { boundary: None, undone: 0, torn: 0 }));
    });
}

#[test]
fn torn_slots_are_counted_in_the_memory_that_a_call_finds() {
    with_store(SIZES, |store| {
        assert_eq!(store.format(GREATEST_LAG, &[0, 0]), Ok(()));
        assert_eq!(store.log(0, &SET_0_TO_2), Ok(Log::Logged { count: 1, stamp: 2 }));
        // of the entry in slot 0 only the address word reaches the memory, of the timestamp in slot 1 only the value word
        assert_eq!((store.write_back(3), store.write_back(6)), (Ok(()), Ok(())));
        // the cache has two whole slots: none of them counts. Clearing word 3, after the base word, leaves slot 0 empty and slot 1 torn
        assert_eq!(store.recover_within(GREATEST_LAG, 2), Ok(None));
        assert_eq!((store.nvm[3], store.nvm[6]), (0, 3));
        assert_eq!(store.recover(GREATEST_LAG), Ok(Recovery { boundary: None, undone: 0, torn: 1 }));
        assert_eq!(store.recover(GREATEST_LAG), Ok(Recovery { boundary: None, undone: 0, torn: 0 }));
    });
}

#[test]
fn marks_drains_and_changes() {
    with_store(SIZES, |store| {
        assert_eq!(store.format(GREATEST_LAG, &[0, 5]), Ok(()));
        assert_eq!(store.log(0, &PASS_OVER), Ok(Log::NoWrites));
        assert_eq!(store.mark(0), Ok(Mark { stamp: 2, dropped: false }));
        assert_eq!(store.log(0, &SET_0_TO_2), Ok(Log::Logged { count: 1, stamp: 4 }));
        assert_eq!(store.mark(0), Ok(Mark { stamp: 6, dropped: true }));
        assert_eq!(store.log(0, &COPY_0_TO_1), Ok(Log::Logged { count: 1, stamp: 8 }));
        assert_eq!(store.validate(0, &SET_0_TO_2), Ok(Validate::Changed));
        assert_eq!(store.drain(0), Ok(()));
        assert_eq!(store.flags.iter().copied().max(), Some(0));
    });
}

/// What settles a lane takes a timestamp and answers it; what writes nothing takes none. A floor is set, and ends with the next drain, as by a Mark.
#[test]
fn the_empty_transaction_settles_a_lane() {
    with_store(SIZES, |store| {
        assert_eq!(store.format(GREATEST_LAG, &[0, 5]), Ok(()));
        assert_eq!(store.log(0, &[]), Ok(Log::Settled { stamp: 2 }));
        assert_eq!((store.record[0], store.record[1], floor(store, 0)), (2, 0, Some(2)));
        // slot 0 of lane 0: a timestamp of 2 over no entries, with wrap bit 1, flushed and not yet drained
        assert_eq!((&store.cache[..5], &store.flags[..5], &store.nvm[..5]), (&[0, 0, 5, 32_769, 3][..], &[0, 0, 0, 1, 1][..], &[0, 0, 5, 0, 0][..]));
        // the second one drains the first, and its floor is its own
        assert_eq!(store.settle(0), Ok(4));
        assert_eq!((store.nvm[3], store.nvm[4], floor(store, 0)), (32_769, 3, Some(4)));
        assert_eq!(store.log(0, &PASS_OVER), Ok(Log::NoWrites));
        assert_eq!((store.record[0], floor(store, 0), store.nvm[6]), (4, None, 5));
        assert_eq!((store.settle(1), store.settle(0)), (Ok(6), Ok(8)));
        assert_eq!((store.drain(0), store.drain(1)), (Ok(()), Ok(())));
        assert_eq!((floor(store, 0), floor(store, 1)), (None, None));
        // the lane is idle, and goes on
        assert_eq!(store.redo(0), Err(Refusal::Idle));
        commit(store, 0, &SET_0_TO_2, 12);
        assert_eq!(store.settle(0), Ok(14));
        // Redo's words are drained, and the last commit stays the commit's
        assert_eq!((store.nvm[1], store.record[1], floor(store, 0)), (2, 12, Some(12)));
    });
}

/// Settles or marks lane 0 of a store on which these calls were made. Its timestamp, and all words.
fn settled_or_marked(calls: fn(&mut Lent), step: fn(&mut Lent) -> u64) -> (u64, Vec<u64>) {
    let mut left = (0, vec![]);
    with_store(SIZES, |store| {
        assert_eq!(store.format(GREATEST_LAG, &[0, 5]), Ok(()));
        calls(store);
        left = (step(store), all_words(store));
    });
    left
}

/// On a lane that holds nothing: new, with a commit that is not drained, with pairs of a transaction that changed, with a mark, in the last slot of its log, in the first one again,
/// and beside a lane that is not drained.
#[test]
fn a_settled_lane_is_as_a_marked_one() {
    let states: [(fn(&mut Lent), u64); 7] = [
        (|_| {}, 2),
        (|store| commit(store, 0, &SET_0_TO_2, 4), 6),
        (
            |store| {
                assert_eq!(store.log(0, &SET_1_TO_7), Ok(Log::Logged { count: 1, stamp: 2 }));
                assert_eq!(store.validate(0, &SET_0_TO_2), Ok(Validate::Changed));
                // the pair of the Log stays, word 1 and 7
                assert_eq!(store.record[10..12], [1, 7]);
            },
            4,
        ),
        (|store| mark(store, 0, 2), 4),
        (|store| (1..34).for_each(|number| mark(store, 0, 2 * number)), 68),
        (|store| (1..35).for_each(|number| mark(store, 0, 2 * number)), 70),
        (|store| commit(store, 1, &SET_1_TO_7, 4), 6),
    ];
    for (calls, stamp) in states {
        let settled = settled_or_marked(calls, |store| store.settle(0).expect("settled"));
        let marked = settled_or_marked(calls, |store| store.mark(0).expect("marked").stamp);
        assert!(settled == marked && settled.0 == stamp, "{} and {}, not {stamp}", settled.0, marked.0);
    }
}

/// 6 is what tells it from a Mark: nothing is dropped, and the transaction can still be committed.
#[test]
fn a_lane_that_holds_a_transaction_is_not_settled() {
    with_store(SIZES, |store| {
        assert_eq!(store.format(GREATEST_LAG, &[0, 0]), Ok(()));
        assert_eq!(store.log(0, &SET_0_TO_2), Ok(Log::Logged { count: 1, stamp: 2 }));
        let before = all_words(store);
        assert_eq!((store.settle(0), store.log(0, &[])), (Err(Refusal::Logged), Err(Refusal::Logged)));
        assert!(all_words(store) == before);
        assert_eq!(store.settle(1), Ok(4));
        assert_eq!(store.redo(0), Ok(Redo::Committed { stamp: 6 }));
        assert_eq!(store.settle(0), Ok(8));
    });
}

/// Only Log takes the empty transaction, and no other that is too short.
#[test]
fn validate_refuses_the_empty_transaction() {
    with_store(SIZES, |store| {
        assert_eq!(store.format(GREATEST_LAG, &[0, 0]), Ok(()));
        assert_eq!(store.validate(0, &[]), Err(Refusal::Txn));
        for length in 1..4 {
            assert_eq!(store.raw_log(0, &SET_0_TO_2[0].to_words()[..length]), 5);
        }
        assert_eq!(store.log(0, &SET_0_TO_2), Ok(Log::Logged { count: 1, stamp: 2 }));
        let before = all_words(store);
        assert_eq!(store.validate(0, &[]), Err(Refusal::Txn));
        assert!(all_words(store) == before);
    });
}

/// Refused in the order 1 2 3 6 8 15 9. Lane 0 holds a transaction logged at 2, its floor, and lane 1 goes once around its log, with marks at 4 to 70; in the last slot there is no
/// room for an entry and a timestamp.
#[test]
fn what_stops_a_lane_from_being_settled() {
    with_store(SIZES, |store| {
        assert_eq!(store.format(GREATEST_LAG, &[0, 0]), Ok(()));
        assert_eq!(store.log(0, &SET_0_TO_2), Ok(Log::Logged { count: 1, stamp: 2 }));
        for number in 2..35 {
            mark(store, 1, 2 * number);
        }
        assert_eq!(store.log(1, &SET_1_TO_7), Err(Refusal::Overwrite));
        assert_eq!(store.settle(1), Ok(70));
        let mut refused = |clock: u64, max_lag: u64, lane: usize| {
            (store.record[0], store.record[LAG_WORD]) = (clock, max_lag);
            let before = all_words(store);
            let number = store.settle(lane).expect_err("refused");
            assert_eq!(store.raw_log(lane, &[]), number.number());
            assert!(all_words(store) == before, "{number:?}");
            number
        };
        const LAST: u64 = u64::MAX - 1;
        assert_eq!((refused(LAST, 3, 2), refused(LAST, 2, 2), refused(LAST, 2, 0)), (Refusal::Record, Refusal::Lane, Refusal::Logged));
        assert_eq!((refused(70, GREATEST_LAG, 0), refused(70, 2, 0)), (Refusal::Logged, Refusal::Logged));
        // 72 is 70 above lane 0's floor
        assert_eq!((refused(LAST, 2, 1), refused(70, 68, 1), refused(70, 70, 1)), (Refusal::Spent, Refusal::LagPassed, Refusal::Overwrite));
        assert_eq!(store.mark(1), Err(Refusal::Overwrite));
        assert_eq!((store.mark(0), store.drain(0)), (Ok(Mark { stamp: 72, dropped: true }), Ok(())));
        assert_eq!((store.settle(1), floor(store, 1)), (Ok(74), Some(74)));
        store.record[LAG_WORD] = 3;
        assert_eq!(store.raw_txn(raw::log, 33, 1, &[]), 1);
        store.sizes = sizes(2, 2, 36);
        assert_eq!(store.settle(1), Err(Refusal::Size));
    });
}

/// The limit is 4, lane 1's floor 4, and the next timestamp 10: both lanes can be marked, and neither settled, until lane 1's mark is drained.
#[test]
fn the_lag_limit_binds_what_settles_a_lane() {
    with_lane_1_idle(|store| {
        let before = all_words(store);
        assert_eq!((store.settle(0), store.settle(1)), (Err(Refusal::LagPassed), Err(Refusal::LagPassed)));
        assert!(all_words(store) == before);
        mark(store, 1, 10);
        assert_eq!(store.settle(0), Err(Refusal::LagPassed));
        assert_eq!(store.drain(1), Ok(()));
        // the floor is lane 0's commit, at 8
        assert_eq!((store.settle(0), floor(store, 0)), (Ok(12), Some(8)));
        assert_eq!(store.drain(0), Ok(()));
        assert_eq!((floor(store, 0), floor(store, 1)), (None, None));
    });
    with_lane_1_idle(|store| mark(store, 0, 10));
}

/// Power is cut, and recovery answers this.
fn cut_and_recover(store: &mut Lent, boundary: Option<u64>, undone: u64) {
    cut_power(store);
    assert_eq!(store.recover(GREATEST_LAG), finished(boundary, undone));
}

/// A store of two words 0 whose lane 1 has set word 1 to 7 at 4, was marked at 6 and drained, and rests.
fn with_lane_1_at_rest(test: impl FnOnce(&mut Lent)) {
    with_store(SIZES, |store| {
        assert_eq!(store.format(GREATEST_LAG, &[0, 0]), Ok(()));
        commit(store, 1, &SET_1_TO_7, 4);
        mark(store, 1, 6);
        assert_eq!(store.drain(1), Ok(()));
        assert_eq!(floor(store, 1), None);
        test(store);
    });
}

/// Neither lane gives a boundary, since the newest timestamp of each is a mark's. If lane 1's mark at 6 were a boundary, lane 0's commit at 10 would be lost.
#[test]
fn a_marked_lane_holds_nothing_back() {
    with_lane_1_at_rest(|store| {
        commit(store, 0, &SET_0_TO_2, 10);
        mark(store, 0, 12);
        assert_eq!(store.drain(0), Ok(()));
        assert_eq!((floor(store, 0), floor(store, 1)), (None, None));
        cut_and_recover(store, None, 0);
        assert_eq!(store.nvm[..3], [12, 2, 7]);
    });
}

/// Lane 0 alone gives a boundary, 14: its first commit, at 10, is below it and stays, as does lane 1's at 4. The second is at the boundary and is undone.
#[test]
fn beside_a_lane_at_rest_a_lane_needs_its_own_drains_alone() {
    with_lane_1_at_rest(|store| {
        commit(store, 0, &SET_0_TO_2, 10);
        assert_eq!(store.drain(0), Ok(()));
        assert_eq!(floor(store, 0), Some(10));
        commit(store, 0, &SET_0_TO_5, 14);
        assert_eq!(store.drain(0), Ok(()));
        // every floor is above 10 now
        assert_eq!((floor(store, 0), floor(store, 1)), (Some(14), None));
        cut_and_recover(store, Some(14), 1);
        assert_eq!(store.nvm[..3], [14, 2, 7]);
    });
}

/// A commit can be lost as long as its own lane's floor is not above it: after a drain alone the floor is the commit's timestamp, and after a Mark still.
#[test]
fn a_mark_and_its_drain_make_a_commit_safe() {
    with_lane_1_at_rest(|store| {
        commit(store, 0, &SET_0_TO_2, 10);
        assert_eq!(store.drain(0), Ok(()));
        assert_eq!(floor(store, 0), Some(10));
        cut_and_recover(store, Some(10), 1);
        assert_eq!(store.nvm[1..3], [0, 7]);
    });
    with_lane_1_at_rest(|store| {
        commit(store, 0, &SET_0_TO_2, 10);
        mark(store, 0, 12);
        assert_eq!(floor(store, 0), Some(10));
        // Mark has drained the commit, but the mark itself is in the cache alone
        cut_and_recover(store, Some(10), 1);
        assert_eq!(store.nvm[1..3], [0, 7]);
    });
    with_lane_1_at_rest(|store| {
        commit(store, 0, &SET_0_TO_2, 10);
        mark(store, 0, 12);
        assert_eq!(store.drain(0), Ok(()));
        assert_eq!(floor(store, 0), None);
        cut_and_recover(store, None, 0);
        assert_eq!(store.nvm[1..3], [2, 7]);
    });
}

/// The same by what settles a lane, whose drain may be that of a later step too.
#[test]
fn a_settled_lane_keeps_its_commits_from_its_next_drain_on() {
    with_lane_1_at_rest(|store| {
        commit(store, 0, &SET_0_TO_2, 10);
        assert_eq!(store.settle(0), Ok(12));
        cut_and_recover(store, Some(10), 1);
        assert_eq!(store.nvm[1..3], [0, 7]);
    });
    let drains: [fn(&mut Lent); 4] = [
        |store| assert_eq!(store.drain(0), Ok(())),
        |store| assert_eq!(store.log(0, &SET_0_TO_5), Ok(Log::Logged { count: 1, stamp: 14 })),
        |store| mark(store, 0, 14),
        |store| assert_eq!(store.settle(0), Ok(14)),
    ];
    for drain in drains {
        with_lane_1_at_rest(|store| {
            commit(store, 0, &SET_0_TO_2, 10);
            assert_eq!(store.settle(0), Ok(12));
            drain(store);
            cut_and_recover(store, None, 0);
            assert_eq!(store.nvm[..3], [12, 2, 7]);
        });
    }
}

/// The commit at 6 is lost, since lane 1's floor is 2. The one at 4 stays, where the other lane's floor is 8; and where lane 1 is the one that is settled, and lane 0's floor is 6.
#[test]
fn a_settled_commit_needs_the_other_lanes_floors_above_it() {
    with_store(SIZES, |store| {
        assert_eq!(store.format(GREATEST_LAG, &[0, 0]), Ok(()));
        assert_eq!(store.log(1, &SET_1_TO_7), Ok(Log::Logged { count: 1, stamp: 2 }));
        assert_eq!(store.drain(1), Ok(()));
        commit(store, 0, &SET_0_TO_2, 6);
        assert_eq!((store.settle(0), store.drain(0)), (Ok(8), Ok(())));
        assert_eq!((floor(store, 0), floor(store, 1)), (None, Some(2)));
        cut_and_recover(store, Some(2), 2);
        assert_eq!(store.nvm[..3], [8, 0, 0]);
    });
    with_store(SIZES, |store| {
        assert_eq!(store.format(GREATEST_LAG, &[0, 0]), Ok(()));
        commit(store, 0, &SET_0_TO_2, 4);
        assert_eq!((store.settle(0), store.drain(0)), (Ok(6), Ok(())));
        assert_eq!(store.log(1, &SET_1_TO_7), Ok(Log::Logged { count: 1, stamp: 8 }));
        assert_eq!(store.drain(1), Ok(()));
        assert_eq!((floor(store, 0), floor(store, 1)), (None, Some(8)));
        cut_and_recover(store, Some(8), 1);
        assert_eq!(store.nvm[..3], [8, 2, 0]);
    });
    with_store(SIZES, |store| {
        assert_eq!(store.format(GREATEST_LAG, &[0, 0]), Ok(()));
        commit(store, 0, &SET_0_TO_2, 4);
        assert_eq!(store.log(0, &SET_0_TO_5), Ok(Log::Logged { count: 1, stamp: 6 }));
        assert_eq!((store.settle(1), store.drain(1), store.drain(0)), (Ok(8), Ok(()), Ok(())));
        // lane 0, not settled itself, has its floor above 4
        assert_eq!((floor(store, 0), floor(store, 1)), (Some(6), None));
        cut_and_recover(store, Some(6), 1);
        assert_eq!(store.nvm[..3], [8, 2, 0]);
    });
}

/// Lane 0 was not marked and gives 4. Lane 1 gives nothing, but its commit at 8 is above 4 and is undone with lane 0's.
#[test]
fn a_marked_lane_is_undone_down_to_the_boundary() {
    with_store(SIZES, |store| {
        assert_eq!(store.format(GREATEST_LAG, &[0, 0]), Ok(()));
        commit(store, 0, &SET_0_TO_2, 4);
        assert_eq!(store.drain(0), Ok(()));
        commit(store, 1, &SET_1_TO_7, 8);
        mark(store, 1, 10);
        assert_eq!(store.drain(1), Ok(()));
        assert_eq!((floor(store, 0), floor(store, 1)), (Some(4), None));
        cut_and_recover(store, Some(4), 2);
        assert_eq!(store.nvm[..3], [10, 0, 0]);
    });
}

/// A floor ends with the drain of a mark, not with the Mark, and the next timestamp appended sets one again, a mark's too.
#[test]
fn a_floor_ends_when_a_mark_is_drained() {
    with_store(SIZES, |store| {
        assert_eq!(store.format(GREATEST_LAG, &[0, 0]), Ok(()));
        assert_eq!(floor(store, 1), None);
        // a mark as the first timestamp of a log
        mark(store, 1, 2);
        assert_eq!(floor(store, 1), Some(2));
        assert_eq!(store.drain(1), Ok(()));
        assert_eq!(floor(store, 1), None);
        assert_eq!(store.drain(1), Ok(()));
        assert_eq!(floor(store, 1), None);
        // and as a later one; a Log that writes nothing drains it too
        mark(store, 1, 4);
        assert_eq!(floor(store, 1), Some(4));
        assert_eq!(store.log(1, &PASS_OVER), Ok(Log::NoWrites));
        assert_eq!(floor(store, 1), None);
        // Log drains the mark at 6 before it appends, and Redo the timestamp that Log gave
        mark(store, 1, 6);
        assert_eq!(store.log(1, &SET_1_TO_7), Ok(Log::Logged { count: 1, stamp: 8 }));
        assert_eq!(floor(store, 1), Some(8));
        assert_eq!(store.redo(1), Ok(Redo::Committed { stamp: 10 }));
        assert_eq!(floor(store, 1), Some(8));
        // Mark drains the commit, and not yet itself; nor do write-backs drain it
        mark(store, 1, 12);
        assert_eq!(floor(store, 1), Some(10));
        for word in 0..SIZES.image_words() {
            assert_eq!(store.write_back(word), Ok(()));
        }
        assert_eq!(floor(store, 1), Some(10));
        assert_eq!(store.drain(1), Ok(()));
        assert_eq!((floor(store, 0), floor(store, 1)), (None, None));
    });
}

/// Refusal 9 keeps what is not below the least floor, floors as after the lane's drain, and nothing where there is none.
#[test]
fn a_marked_lane_keeps_no_slots() {
    with_store(SIZES, |store| {
        assert_eq!(store.format(GREATEST_LAG, &[0, 0]), Ok(()));
        mark(store, 1, 2);
        for _ in 0..SIZES.slots() {
            assert!(store.mark(0).is_ok());
        }
        // slot 0 has the mark at 4, and lane 1's floor is 2
        assert_eq!(store.mark(0), Err(Refusal::Overwrite));
        assert_eq!(store.drain(1), Ok(()));
        for _ in 0..3 * SIZES.slots() {
            assert!(store.mark(0).is_ok());
        }
    });
    with_store(SIZES, |store| {
        let sixteen = SET_0_TO_2.repeat(16);
        assert_eq!(store.format(GREATEST_LAG, &[0, 0]), Ok(()));
        assert_eq!(store.log(0, &sixteen), Ok(Log::Logged { count: 16, stamp: 2 }));
        assert_eq!(store.redo(0), Ok(Redo::Committed { stamp: 4 }));
        mark(store, 0, 6);
        // from slot 18 around to slot 0, which is of the sequence at 4: the floor is 4, but the drain of the mark ends it
        assert_eq!(floor(store, 0), Some(4));
        assert_eq!(store.log(0, &sixteen), Ok(Log::Logged { count: 16, stamp: 8 }));
        assert_eq!(floor(store, 0), Some(8));
    });
}

/// Of two sequences with one timestamp the later decides whether the lane was marked: on one lap the one in the higher slot, on two the one whose wrap bit is not that of the
/// highest slot. No run of calls leaves a mark and entries with one timestamp.
#[test]
fn of_equal_timestamps_the_later_decides() {
    // the old value 9 of word 0, the timestamp 2 that closes it, and the timestamp 2 of a mark; and the last two with wrap bit 0
    let (entry, closing, marked) = ([11, 9], [32_777, 3], [32_769, 3]);
    let (entry_0, closing_0, marked_0) = ([10, 8], [32_776, 2], [32_768, 2]);
    for (slots, given, undone, word) in [
        ([entry, closing, marked], None, 0, 0),
        ([marked, entry, closing], Some(2), 1, 9),
        ([entry, closing, marked_0], Some(2), 1, 9),
        ([marked, entry_0, closing_0], None, 0, 0),
        ([entry_0, closing_0, marked], Some(2), 1, 9),
        ([marked_0, entry, closing], None, 0, 0),
        ([marked_0, marked, marked], None, 0, 0),
    ] {
        with_store(SIZES, |store| {
            assert_eq!(store.format(GREATEST_LAG, &[0, 0]), Ok(()));
            store.nvm[3..9].copy_from_slice(slots.as_flattened());
            store.cache[3..9].copy_from_slice(slots.as_flattened());
            assert_eq!(store.drain(0), Ok(()));
            assert_eq!(floor(store, 0), given, "{slots:?}");
            assert_eq!(store.recover(GREATEST_LAG), finished(given, undone), "{slots:?}");
            assert_eq!(store.nvm[..3], [2, word, 0], "{slots:?}");
        });
    }
}

/// A store whose word 0 is 3, with lane 0 as a Log of that POKE left it under the former rule: it wrote word 3 modulo 2, so a Log of a SET of word 1 leaves the same.
fn with_poke_held(test: impl FnOnce(&mut Lent)) {
    with_store(SIZES, |store| {
        assert_eq!(store.format(GREATEST_LAG, &[3, 0]), Ok(()));
        assert_eq!(store.log(0, &SET_1_TO_7), Ok(Log::Logged { count: 1, stamp: 2 }));
        test(store);
    });
}

#[test]
fn a_new_poke_is_refused_and_a_logged_one_ends_by_redo_or_mark() {
    with_poke_held(|store| {
        assert_eq!((store.raw_log(1, &POKE), store.raw_log(1, &PASS_OVER_POKE)), (5, 5));
        assert_eq!((store.raw_validate(0, &POKE), store.raw_validate(0, &PASS_OVER_POKE)), (5, 5));
        assert_eq!(store.redo(0), Ok(Redo::Committed { stamp: 4 }));
        assert_eq!(store.cache[1..3], [3, 7]);
    });
    with_poke_held(|store| {
        assert_eq!(store.mark(0), Ok(Mark { stamp: 4, dropped: true }));
        assert_eq!(store.redo(0), Err(Refusal::Idle));
        assert_eq!(store.cache[1..3], [3, 0]);
    });
}

/// The lag limit of the record.
fn lag_limit(store: &Lent) -> u64 {
    store.record[LAG_WORD]
}

/// Two lanes and the lag limit 4. Lane 1 commits at 4 and rests, with that floor; a Log of lane 0 may then take 6 or 8, and not 10, until lane 1 is marked and drained.
fn with_lane_1_idle(test: impl FnOnce(&mut Lent)) {
    with_store(SIZES, |store| {
        assert_eq!(store.format(4, &[0, 0]), Ok(()));
        commit(store, 1, &SET_0_TO_2, 4);
        assert_eq!(store.drain(1), Ok(()));
        commit(store, 0, &SET_0_TO_5, 8);
        assert_eq!((floor(store, 0), floor(store, 1)), (Some(6), Some(4)));
        test(store);
    });
}

/// The commits at 4 and 8 can both be lost. With a Log at 10 the one at 4 would be 6 below it.
#[test]
fn the_lag_limit_refuses_a_log() {
    with_lane_1_idle(|store| {
        let record = store.record.to_vec();
        assert_eq!(store.log(0, &SET_1_TO_7), Err(Refusal::LagPassed));
        assert_eq!(*store.record, record[..]);
        // word 1 is 0: what is passed over takes no timestamp
        assert_eq!(store.log(0, &[SkipIfZero { word: 1, count: 1 }, Set { to: 1, value: 9 }]), Ok(Log::NoWrites));
        cut_and_recover(store, Some(4), 2);
        assert_eq!(store.nvm[1..3], [0, 0]);
    });
}

/// Lane 1's commit is safe when its mark at 10 is drained. Then lane 0's floor is the least, 8 after its drain, and a Log at 12 is within the limit.
#[test]
fn a_mark_and_a_drain_of_the_idle_lane_let_it_go_on() {
    with_lane_1_idle(|store| {
        assert_eq!(store.log(0, &SET_1_TO_7), Err(Refusal::LagPassed));
        mark(store, 1, 10);
        // lane 1's floor is still 4
        assert_eq!(store.log(0, &SET_1_TO_7), Err(Refusal::LagPassed));
        assert_eq!(store.drain(1), Ok(()));
        assert_eq!(store.log(0, &SET_1_TO_7), Ok(Log::Logged { count: 1, stamp: 12 }));
        assert_eq!((floor(store, 0), floor(store, 1)), (Some(8), None));
        assert_eq!(store.redo(0), Ok(Redo::Committed { stamp: 14 }));
        cut_and_recover(store, Some(12), 1);
        assert_eq!(store.nvm[..3], [12, 5, 0]);
    });
}

/// Where no lane has a floor the limit does not bind: at the first Log after a start, and where all lanes were marked and drained.
#[test]
fn without_a_floor_there_is_no_limit() {
    with_store(SIZES, |store| {
        assert_eq!(store.format(2, &[0, 0]), Ok(()));
        for stamp in [4, 10, 16] {
            commit(store, 0, &SET_0_TO_2, stamp);
            mark(store, 0, stamp + 2);
            assert_eq!(store.drain(0), Ok(()));
        }
        // each mark of lane 1 sets a floor, which the drain before the next one ends
        for stamp in [20, 22, 24] {
            mark(store, 1, stamp);
            assert_eq!(floor(store, 1), Some(stamp));
        }
        // 2 above lane 1's floor
        assert_eq!(store.log(0, &SET_0_TO_5), Ok(Log::Logged { count: 1, stamp: 26 }));
        cut_power(store);
        assert_eq!(store.recover(2), finished(None, 0));
        // in the memory are lane 1's marks up to 22; the base is 22
        assert_eq!(store.log(1, &SET_1_TO_7), Ok(Log::Logged { count: 1, stamp: 24 }));
    });
}

/// The limit is not in the image: each start is given one, and it may be another.
#[test]
fn each_start_is_given_a_lag_limit() {
    with_store(SIZES, |store| {
        for limit in [0, 1, 3, GREATEST_LAG + 1, GREATEST_LAG + 2, u64::MAX] {
            assert_eq!(store.format(limit, &[0, 0]), Err(Refusal::LagRange));
            assert_eq!(store.format(limit, &[0]), Err(Refusal::Size));
        }
        assert_eq!(store.format(6, &[0, 0]), Ok(()));
        assert_eq!(lag_limit(store), 6);
        commit(store, 0, &SET_0_TO_2, 4);
        assert_eq!(lag_limit(store), 6);
        assert_eq!(store.recover(3), Err(Refusal::LagRange));
        // where stores remain there is no record
        assert_eq!(store.recover_within(8, 0), Ok(None));
        assert!(store.record.iter().all(|&word| word == 0));
        assert_eq!(store.recover(8), finished(Some(2), 1));
        assert_eq!(lag_limit(store), 8);
        store.record[LAG_WORD] = 7;
        assert_eq!((store.mark(0), store.raw_step(raw::mark, 0)), (Err(Refusal::Record), 2));
    });
    with_length(SIZES, SIZES.former_words(), |store| {
        assert_eq!(store.recover_former(GREATEST_LAG + 2), Err(Refusal::LagRange));
        assert_eq!(store.recover_former(2), finished(None, 0));
        assert_eq!(lag_limit(store), 2);
    });
}

#[test]
fn both_lengths() {
    assert_eq!((SIZES.former_words(), SIZES.image_words()), (139, 143));
    assert_eq!((MAX_FORMER_WORDS, MAX_IMAGE_WORDS), (5121, 5125));
}

/// Buffers found after a power cut, by someone who knows their length alone.
#[test]
fn the_sizes_are_read_from_the_image() {
    with_store(SIZES, |store| {
        assert_eq!(store.format(GREATEST_LAG, &[8, 9]), Ok(()));
        assert_eq!((&store.cache[139..], &store.nvm[139..]), (&[2, 2, 34, 139][..], &[2, 2, 34, 139][..]));
        for word in 139..143 {
            assert_eq!(store.write_back(word), Ok(()));
        }
        assert_eq!(store.log(0, &SET_0_TO_2), Ok(Log::Logged { count: 1, stamp: 2 }));
        assert_eq!(store.redo(0), Ok(Redo::Committed { stamp: 4 }));
        cut_power(store);
        store.sizes = sizes(1, 1, 34);
        assert_eq!(store.recover(GREATEST_LAG), Ok(Recovery { boundary: Some(2), undone: 1, torn: 0 }));
        assert_eq!(store.sizes, SIZES);
        assert_eq!(store.nvm[139..], [2, 2, 34, 139]);
        assert!(*store.cache == *store.nvm && store.flags.iter().all(|&flag| flag == 0));
        assert_eq!(store.log(1, &COPY_0_TO_1), Ok(Log::Logged { count: 1, stamp: 4 }));
    });
}

/// An image of the former length: recovered with its sizes given, used on, and moved to the new form.
#[test]
fn an_image_of_the_former_length_is_taken_over() {
    let mut data = Vec::new();
    with_length(SIZES, SIZES.former_words(), |store| {
        // word 0 was changed from 7 to 9 by a transaction with timestamp 2, and power was cut
        store.nvm[1] = 9;
        store.nvm[3..7].copy_from_slice(&[11, 7, 32_777, 3]);
        store.cache.fill(77);
        assert_eq!(store.recover_former(GREATEST_LAG), Ok(Recovery { boundary: Some(2), undone: 1, torn: 0 }));
        assert_eq!((store.nvm[1], store.cache[1]), (7, 7));
        assert_eq!(store.log(1, &COPY_0_TO_1), Ok(Log::Logged { count: 1, stamp: 4 }));
        assert_eq!(store.redo(1), Ok(Redo::Committed { stamp: 6 }));
        assert_eq!((store.mark(0), store.mark(1)), (Ok(Mark { stamp: 8, dropped: false }), Ok(Mark { stamp: 10, dropped: false })));
        assert_eq!((store.drain(0), store.drain(1)), (Ok(()), Ok(())));
        assert_eq!(store.write_back(138), Ok(()));
        assert_eq!(store.write_back(139), Err(Refusal::Word));
        // the next start: both lanes are marked and drained, and the commit at 6 stays
        store.cache.fill(77);
        assert_eq!(store.recover_former(GREATEST_LAG), Ok(Recovery { boundary: None, undone: 0, torn: 0 }));
        data.extend_from_slice(&store.nvm[1..=SIZES.words()]);
        assert_eq!(data, [7, 7]);
    });
    with_store(SIZES, |store| {
        assert_eq!(store.format(GREATEST_LAG, &data), Ok(()));
        assert_eq!(store.recover(GREATEST_LAG), Ok(Recovery { boundary: None, undone: 0, torn: 0 }));
        assert_eq!(store.nvm[1..3], [7, 7]);
    });
}

const REFUSALS: [Refusal; 15] = [
    Refusal::Size,
    Refusal::Record,
    Refusal::Lane,
    Refusal::Word,
    Refusal::Txn,
    Refusal::Logged,
    Refusal::Idle,
    Refusal::Spent,
    Refusal::Overwrite,
    Refusal::OddBase,
    Refusal::Locked,
    Refusal::TooLong,
    Refusal::Trailer,
    Refusal::LagPassed,
    Refusal::LagRange,
];

#[test]
fn refusals_have_their_numbers() {
    assert_eq!(Sizes::new(2, 2, 33), Err(Refusal::Size));
    with_length(SIZES, image_words(2, 2, 33), |store| {
        let Buffers { cache, nvm, flags, record } = store.buffers();
        assert_eq!(raw::format(2, 2, 33, GREATEST_LAG, &[0, 0], cache, nvm, flags, record), 1);
        assert_eq!(store.format(GREATEST_LAG, &[0, 0]), Err(Refusal::Size));
    });
    with_store(SIZES, |store| {
        assert_eq!(store.format(GREATEST_LAG, &[0]), Err(Refusal::Size));
        assert_eq!(store.format(GREATEST_LAG, &[0, 0]), Ok(()));
        assert_eq!(store.drain(2), Err(Refusal::Lane));
        assert_eq!(store.write_back(SIZES.image_words()), Err(Refusal::Word));
        assert_eq!(store.raw_log(0, &[1]), 5);
        assert_eq!(store.redo(0), Err(Refusal::Idle));
        assert_eq!(store.log(0, &SET_0_TO_2), Ok(Log::Logged { count: 1, stamp: 2 }));
        assert_eq!(store.log(0, &SET_0_TO_2), Err(Refusal::Logged));
        // lane 0 keeps its floor: lane 1 can go once around its log, not further
        for _ in 0..SIZES.slots() {
            assert!(store.mark(1).is_ok());
        }
        assert_eq!(store.mark(1), Err(Refusal::Overwrite));
        store.record[0] = u64::MAX - 1;
        assert_eq!(store.redo(0), Err(Refusal::Spent));
        store.record[0] = 1;
        assert_eq!((store.redo(0), store.raw_step(raw::redo, 0)), (Err(Refusal::Record), 2));
        store.nvm[0] = 3;
        assert_eq!(store.recover(GREATEST_LAG), Err(Refusal::OddBase));
        store.nvm[SIZES.image_words() - 1] += 1;
        assert_eq!(store.recover(GREATEST_LAG), Err(Refusal::Trailer));
        assert_eq!(store.recover_former(GREATEST_LAG), Err(Refusal::Size));
    });
    with_length(SIZES, SIZES.former_words(), |store| {
        assert_eq!(store.format(GREATEST_LAG, &[0, 0]), Err(Refusal::Size));
        assert_eq!(store.recover(GREATEST_LAG), Err(Refusal::Trailer));
        store.nvm[0] = 3;
        assert_eq!(store.recover_former(GREATEST_LAG), Err(Refusal::OddBase));
    });
    let numbers = REFUSALS.map(Refusal::number);
    assert_eq!(numbers, [1, 2, 3, 4, 5, 6, 7, 8, 9, 10, 11, 12, 14, 15, 16]);
}

// ---- Long transactions ----

const LONG: Sizes = sizes(4, 2, 64);

/// So many ADDs of 1, to words 0 to 3 in turn.
fn adds(count: usize) -> Vec<Instruction> {
    (0..count).map(|number| Add { to: number % 4, from: number % 4, value: 1 }).collect()
}

/// A store of four words 0 whose lane 1 holds a transaction logged at 2, its floor.
fn with_lane_1_logged(test: impl FnOnce(&mut Lent)) {
    with_store(LONG, |store| {
        assert_eq!(store.format(GREATEST_LAG, &[0; 4]), Ok(()));
        assert_eq!(store.log(1, &SET_1_TO_7), Ok(Log::Logged { count: 1, stamp: 2 }));
        test(store);
    });
}

/// The lock's words in the record, without its pairs.
fn lock_words(store: &Lent) -> [u64; 6] {
    store.record[LOCK_WORD..LOCK_WORD + 6].try_into().unwrap()
}

/// 18 writes in two parts: what each step leaves in the record, the logs and the data words. All timestamps are the lock's.
#[test]
fn a_long_transaction_step_by_step() {
    with_lane_1_logged(|store| {
        assert_eq!(store.log(0, &SET_0_TO_5), Ok(Log::Logged { count: 1, stamp: 4 }));
        assert_eq!(store.redo(0), Ok(Redo::Committed { stamp: 6 }));
        let log = |store: &Lent, slot: usize| [store.cache[5 + 2 * slot], store.cache[6 + 2 * slot]];
        let before = store.cache.to_vec();
        // it drains, and takes timestamp and lock; no cached word changes, and the lane's newest timestamp is still its commit's
        assert_eq!(store.lock(0, &adds(18)), Ok(Lock::Taken(Progress { left: 18, stamp: 8 })));
        assert_eq!((store.record[0], store.record[1], floor(store, 0), lock_words(store)), (8, 6, Some(6), [1, 0, 8, 18, 0, 0]));
        assert_eq!((store.cache.to_vec(), store.nvm[1], store.flags[..143].iter().filter(|&&flag| flag & 1 != 0).count()), (before, 5, 0));
        assert_eq!(store.record[LOCK_WORD + 6..LOCK_WORD + 12], [0, 6, 1, 1, 2, 1]);
        assert_eq!(store.record[LOCK_WORD + 38..LOCK_WORD + 44], [0, 10, 1, 5, 0, 0]);
        // the first part: 16 entries behind slots 0 and 1, with running old values, and the timestamp in slot 18
        assert_eq!(store.proceed(0), Ok(Progress { left: 18, stamp: 8 }));
        assert_eq!((lock_words(store), store.record[1], store.record[6]), ([1, 0, 8, 18, 16, 0], 6, 19));
        assert_eq!((log(store, 2), log(store, 3), log(store, 6), log(store, 17)), ([11, 5], [17, 1], [9, 7], [35, 3]));
        assert_eq!((log(store, 18), log(store, 19), store.cache[1..5].to_vec()), ([32_897, 9], [0, 0], vec![5, 0, 0, 0]));
        assert_eq!((store.flags[5 + 4], store.nvm[5 + 4], floor(store, 0)), (1, 0, Some(6)));
        // its writes, behind a drain of the entries: they show in the cache
        assert_eq!(store.proceed(0), Ok(Progress { left: 2, stamp: 8 }));
        assert_eq!((lock_words(store), store.record[1], floor(store, 0)), ([1, 0, 8, 18, 16, 16], 6, Some(8)));
        assert_eq!((store.cache[1..5].to_vec(), store.nvm[1..5].to_vec()), (vec![9, 4, 4, 4], vec![5, 0, 0, 0]));
        assert_eq!((store.flags[..9].to_vec(), store.nvm[5 + 4], log(store, 18)), (vec![0, 1, 1, 1, 1, 0, 0, 0, 0], 11, [32_897, 9]));
        // the second part
        assert_eq!(store.proceed(0), Ok(Progress { left: 2, stamp: 8 }));
        assert_eq!((lock_words(store), log(store, 19), log(store, 20), log(store, 21)), ([1, 0, 8, 18, 18, 16], [11, 9], [17, 5], [32_785, 9]));
        assert_eq!(store.proceed(0), Ok(Progress { left: 0, stamp: 8 }));
        assert_eq!((lock_words(store), store.record[0], store.record[1]), ([0; 6], 8, 8));
        assert_eq!(store.cache[1..5], [10, 5, 4, 4]);
        // the pairs stay
        assert_eq!(store.record[LOCK_WORD + 38..LOCK_WORD + 44], [0, 10, 1, 5, 0, 0]);
        assert_eq!(store.proceed(0), Err(Refusal::Idle));
        // lane 1's transaction, logged at 2, is stale now
        assert_eq!(store.redo(1), Ok(Redo::Stale));
        mark(store, 0, 10);
        assert_eq!((store.drain(0), store.mark(1), store.drain(1)), (Ok(()), Ok(Mark { stamp: 12, dropped: true }), Ok(())));
        cut_and_recover(store, None, 0);
        assert_eq!(store.nvm[..5], [12, 10, 5, 4, 4]);
        assert!(store.record[LOCK_WORD..].iter().all(|&word| word == 0));
    });
}

/// The handle tells timestamp and writes left, lets drains and write-backs go on, and can be let go and taken up again.
#[test]
fn a_long_transaction_by_its_handle() {
    let test = |store: &mut Store| {
        assert!(store.resume().is_none());
        let mut long = store.long(0, &adds(40)).expect("taken").expect("writes");
        let mut seen = vec![];
        while long.left() > 8 {
            seen.push(long.left());
            assert_eq!(long.step(), Ok(Progress { left: long.left(), stamp: 4 }));
            assert_eq!((long.store().drain(0), long.store().drain(1), long.store().write_back(1)), (Ok(()), Ok(()), Ok(())));
        }
        assert_eq!((seen, long.lane(), long.stamp(), long.left()), (vec![40, 40, 24, 24], 0, 4, 8));
        // the first two parts show
        assert_eq!(long.store().words(), [8, 8, 8, 8]);
        assert_eq!(store.redo(1), Err(Refusal::Locked));
        let mut long = store.resume().expect("held");
        assert_eq!((long.lane(), long.stamp(), long.left()), (0, 4, 8));
        assert_eq!(long.step(), Ok(Progress { left: 8, stamp: 4 }));
        assert_eq!(long.finish(), Ok(4));
        assert_eq!(store.words(), [10, 10, 10, 10]);
        assert!(store.resume().is_none());
        assert_eq!(store.long(0, &adds(1)).expect("taken").expect("writes").finish(), Ok(6));
        assert_eq!(store.words()[0], 11);
    };
    with_lane_1_logged(|store| {
        store.started(test).expect("a store that has started");
        assert_eq!(store.cache[1..5], [11, 10, 10, 10]);
    });
}

/// While the lock is held each step but the next one is refused, those of its own lane too; drains, write-backs and starts are not.
#[test]
fn the_lock_stops_other_steps() {
    with_lane_1_logged(|store| {
        assert!(matches!(store.lock(0, &adds(20)), Ok(Lock::Taken(_))));
        for step in 0..3 {
            let before = all_words(store);
            for lane in 0..2 {
                assert_eq!(store.mark(lane), Err(Refusal::Locked));
            }
            assert_eq!(
                (store.log(0, &SET_0_TO_5), store.log(0, &PASS_OVER), store.settle(0)),
                (Err(Refusal::Locked), Err(Refusal::Locked), Err(Refusal::Locked))
            );
            assert_eq!(
                (store.lock(0, &adds(1)), store.lock(0, &PASS_OVER), store.proceed(1)),
                (Err(Refusal::Locked), Err(Refusal::Locked), Err(Refusal::Locked))
            );
            assert_eq!((store.redo(1), store.validate(1, &SET_1_TO_7)), (Err(Refusal::Locked), Err(Refusal::Locked)));
            // what comes before it
            assert_eq!((store.log(1, &SET_0_TO_5), store.lock(1, &adds(1)), store.redo(0)), (Err(Refusal::Logged), Err(Refusal::Logged), Err(Refusal::Idle)));
            assert_eq!((store.lock(0, &[]), store.validate(0, &SET_1_TO_7), store.proceed(2)), (Err(Refusal::Txn), Err(Refusal::Idle), Err(Refusal::Lane)));
            assert!(all_words(store) == before, "step {step}");
            assert_eq!((store.drain(0), store.drain(1), store.write_back(5)), (Ok(()), Ok(()), Ok(())));
            assert!(store.proceed(0).is_ok());
        }
        assert_eq!(store.proceed(0), Ok(Progress { left: 0, stamp: 4 }));
        assert_eq!((store.mark(0), store.redo(1)), (Ok(Mark { stamp: 6, dropped: false }), Ok(Redo::Stale)));
    });
    with_lane_1_logged(|store| {
        assert!(matches!(store.lock(0, &adds(20)), Ok(Lock::Taken(_))));
        assert_eq!(store.recover(GREATEST_LAG), finished(None, 0));
        assert!(store.record[LOCK_WORD..].iter().all(|&word| word == 0));
        assert_eq!(store.proceed(0), Err(Refusal::Idle));
        assert!(matches!(store.lock(0, &adds(20)), Ok(Lock::Taken(_))));
        assert_eq!(store.format(GREATEST_LAG, &[0; 4]), Ok(()));
        assert!(store.record[LOCK_WORD..].iter().all(|&word| word == 0));
    });
}

/// What writes nothing takes no lock, also where the clock is spent, but drains; it counts its slots all the same.
#[test]
fn a_long_transaction_without_writes() {
    with_lane_1_logged(|store| {
        let passes = [&[SkipIfZero { word: 0, count: 15 }][..], &adds(15)].concat();
        assert_eq!(store.started(|store| store.long(0, &passes.repeat(2)).expect("taken").is_none()), Ok(true));
        assert_eq!(store.lock(0, &passes), Ok(Lock::NoWrites));
        assert_eq!((store.record[0], lock_words(store)), (2, [0; 6]));
        assert_eq!(store.lock(0, &passes.repeat(3)), Err(Refusal::TooLong));
        mark(store, 0, 4);
        store.record[0] = u64::MAX - 1;
        assert_eq!(store.lock(0, &adds(1)), Err(Refusal::Spent));
        assert_eq!(store.lock(0, &passes), Ok(Lock::NoWrites));
        assert_eq!((floor(store, 0), store.nvm[6]), (None, 5));
    });
}

/// Of 64 slots 47 can be counted: 44 instructions and three timestamps. More words than 64 instructions have are no transaction.
#[test]
fn what_is_too_long() {
    assert_eq!(MAX_LONG_TXN_WORDS, 256);
    with_lane_1_logged(|store| {
        assert_eq!(
            (store.lock(0, &adds(65)), store.lock(0, &adds(64)), store.lock(0, &adds(45))),
            (Err(Refusal::Txn), Err(Refusal::TooLong), Err(Refusal::TooLong))
        );
        assert_eq!(store.lock(0, &adds(44)), Ok(Lock::Taken(Progress { left: 44, stamp: 4 })));
    });
    with_lane_1_logged(|store| {
        // lane 1's floor is 2: 47 slots of lane 0 are left, just enough
        for number in 2..19 {
            mark(store, 0, 2 * number);
        }
        assert_eq!(store.lock(0, &adds(44)), Ok(Lock::Taken(Progress { left: 44, stamp: 38 })));
    });
    with_lane_1_logged(|store| {
        // and here 46
        for number in 2..20 {
            mark(store, 0, 2 * number);
        }
        assert_eq!((store.lock(0, &adds(44)), store.lock(0, &PASS_OVER)), (Err(Refusal::Overwrite), Ok(Lock::NoWrites)));
        store.record[LAG_WORD] = 36;
        assert_eq!((store.lock(0, &adds(44)), store.lock(0, &adds(1))), (Err(Refusal::LagPassed), Err(Refusal::LagPassed)));
        store.record[LAG_WORD] = 38;
        assert_eq!(store.lock(0, &adds(43)), Ok(Lock::Taken(Progress { left: 43, stamp: 40 })));
    });
}

/// A cut while some parts are written, with all of them in the memory: the boundary is the lock's timestamp, and every part is undone, the later one first. A word that two parts write
/// gets back what it had before the first.
#[test]
fn a_cut_takes_all_parts_back() {
    for steps in 0..6 {
        with_store(LONG, |store| {
            assert_eq!(store.format(GREATEST_LAG, &[1, 2, 3, 4]), Ok(()));
            let run = |store: &mut Store| {
                let mut long = store.long(0, &adds(40)).expect("taken").expect("writes");
                for _ in 0..steps {
                    assert!(long.step().is_ok());
                }
            };
            assert_eq!(store.started(run), Ok(()));
            for word in 0..LONG.image_words() {
                assert_eq!(store.write_back(word), Ok(()));
            }
            let (boundary, undone) = [(None, 0), (Some(2), 16), (Some(2), 16), (Some(2), 32), (Some(2), 32), (Some(2), 40)][steps];
            cut_and_recover(store, boundary, undone);
            assert_eq!(store.nvm[1..5], [1, 2, 3, 4]);
        });
    }
}

/// The parts of one transaction on two laps of the log: slots 60 to 63 and on from slot 0. By the slots alone the part in the higher ones would be undone first.
#[test]
fn parts_around_the_end_of_the_log() {
    for marks in [30, 40, 46, 47, 48, 60, 63] {
        with_store(LONG, |store| {
            assert_eq!(store.format(GREATEST_LAG, &[1, 2, 3, 4]), Ok(()));
            for number in 1..=marks {
                mark(store, 0, 2 * number);
            }
            assert_eq!(store.drain(0), Ok(()));
            let run = |store: &mut Store| {
                let mut long = store.long(0, &adds(40)).expect("taken").expect("writes");
                while long.left() > 8 {
                    assert!(long.step().is_ok());
                }
                assert!(long.step().is_ok());
            };
            assert_eq!(store.started(run), Ok(()));
            for word in 0..LONG.image_words() {
                assert_eq!(store.write_back(word), Ok(()));
            }
            cut_and_recover(store, Some(2 * marks + 2), 40);
            assert_eq!(store.nvm[1..5], [1, 2, 3, 4], "{marks} marks");
        });
    }
}

// ---- The types that calls take ----

/// As the library itself checks them, at both ends of each range.
#[test]
fn sizes_in_range() {
    for words in [0, 1, 2, 1023, 1024, 1025] {
        for lanes in [0, 1, 8, 9] {
            for slots in [0, 33, 34, 256, 257] {
                let length = image_words(words, lanes, slots);
                let (mut cache, mut nvm, mut flags) = (vec![0; length], vec![0; length], vec![0; length]);
                let number = raw::format(words, lanes, slots, 2, &vec![0; words], &mut cache, &mut nvm, &mut flags, &mut [0; RECORD_WORDS]);
                match Sizes::new(words, lanes, slots) {
                    Ok(sizes) => {
                        assert_eq!((sizes.words(), sizes.lanes(), sizes.slots(), number), (words, lanes, slots, 0));
                        assert_eq!((sizes.image_words(), sizes.former_words()), (length, former_words(words, lanes, slots)));
                    }
                    Err(refusal) => assert_eq!(refusal.number(), number, "W {words}, T {lanes}, N {slots}"),
                }
            }
        }
    }
}

#[test]
fn instructions_have_their_words() {
    let txn =
        [Set { to: 1, value: 7 }, Copy { to: 2, from: 1 }, Add { to: 3, from: 2, value: u64::MAX }, SkipIfZero { word: 0, count: 1 }, Set { to: 3, value: 0 }];
    assert_eq!(txn.map(Instruction::to_words), [[1, 1, 0, 7], [2, 2, 1, 0], [3, 3, 2, u64::MAX], [5, 0, 0, 1], [1, 3, 0, 0]]);
    with_store(LONG, |store| {
        assert_eq!(store.format(GREATEST_LAG, &[0; 4]), Ok(()));
        assert_eq!(store.started(|store| store.commit(0, &txn)), Ok(Ok(Some(4))));
        assert_eq!(store.cache[1..5], [0, 7, 7, 6]);
    });
}

/// The library refuses them, with nothing touched: more instructions than the most, however many, words that are no data words, and skips out of range.
#[test]
fn what_is_no_transaction() {
    assert_eq!((MAX_INSTRUCTIONS, MAX_TXN_WORDS, MAX_LONG_INSTRUCTIONS, MAX_LONG_TXN_WORDS), (16, 64, 64, 256));
    with_store(sizes(4, 2, 85), |store| {
        assert_eq!(store.format(GREATEST_LAG, &[1; 4]), Ok(()));
        assert_eq!(store.log(1, &adds(16)), Ok(Log::Logged { count: 16, stamp: 2 }));
        let before = all_words(store);
        for count in [17, 18, 64, 65, 66, 1_000] {
            assert_eq!((store.log(0, &adds(count)), store.validate(1, &adds(count))), (Err(Refusal::Txn), Err(Refusal::Txn)));
            assert_eq!(store.started(|store| store.commit(0, &adds(count))), Ok(Err(Refusal::Txn)));
        }
        for count in [65, 66, 1_000] {
            assert_eq!(store.lock(0, &adds(count)), Err(Refusal::Txn));
        }
        for word in [4, 5, usize::MAX] {
            let no_words = [
                Set { to: word, value: 1 },
                Copy { to: word, from: 0 },
                Copy { to: 0, from: word },
                Add { to: word, from: 0, value: 1 },
                Add { to: 0, from: word, value: 1 },
                SkipIfZero { word, count: 1 },
            ];
            for instruction in no_words {
                let txn = [instruction, Set { to: 0, value: 1 }];
                assert_eq!((store.log(0, &txn), store.lock(0, &txn)), (Err(Refusal::Txn), Err(Refusal::Txn)), "{txn:?}");
            }
        }
        for count in [0, 2, 16, u64::MAX] {
            let txn = [SkipIfZero { word: 0, count }, Set { to: 0, value: 1 }];
            assert_eq!((store.log(0, &txn), store.lock(0, &txn)), (Err(Refusal::Txn), Err(Refusal::Txn)), "{txn:?}");
        }
        assert!(all_words(store) == before);
        assert!(matches!(store.lock(0, &adds(64)), Ok(Lock::Taken(Progress { left: 64, .. }))));
    });
}

#[test]
fn refusals_say_their_number() {
    let texts = REFUSALS.map(|refusal| {
        let text = refusal.to_string();
        text.strip_prefix(&format!("refused {}: ", refusal.number())).expect("the number first").to_string()
    });
    let distinct: std::collections::BTreeSet<&str> = texts.iter().map(|text| text.trim()).filter(|text| !text.is_empty()).collect();
    assert_eq!(distinct.len(), REFUSALS.len());
    let error: Box<dyn std::error::Error> = Refusal::Trailer.into();
    assert_eq!(error.to_string(), "refused 14: the image tells no sizes that agree with its length");
    assert!(Refusal::Unknown(13).to_string().starts_with("refused 13: "));
}

// ---- Starts ----

/// A refused start leaves the buffers, and all that is in them, to the next one.
#[test]
fn a_refused_start_hands_the_buffers_back() {
    with_store(SIZES, |lent| {
        let mut buffers = lent.buffers();
        assert_eq!(Store::format(&mut buffers, SIZES, 3, &[5, 6]).expect_err("odd"), Refusal::LagRange);
        assert_eq!(Store::recover(&mut buffers, GREATEST_LAG).expect_err("zeros"), Refusal::Trailer);
        assert!(buffers.nvm.iter().all(|&word| word == 0));
        let store = Store::format(&mut buffers, SIZES, LEAST_LAG, &[5, 6]).expect("format");
        assert_eq!((store.words(), store.max_lag()), (&[5, 6][..], 2));
        let (store, recovery) = Store::recover(&mut buffers, 8).expect("recovery");
        assert_eq!((store.words(), store.max_lag(), recovery), (&[5, 6][..], 8, Recovery { boundary: None, undone: 0, torn: 0 }));
        let before = buffers.nvm.to_vec();
        buffers.nvm[142] += 1;
        assert_eq!(Store::recover(&mut buffers, 8).expect_err("spoiled"), Refusal::Trailer);
        buffers.nvm[142] -= 1;
        assert_eq!(buffers.nvm, before);
        assert_eq!(Store::recover_former(&mut buffers, SIZES, 8).expect_err("with a trailer"), Refusal::Size);
    });
}

/// Part by part, of an image of each form.
#[test]
fn recovery_part_by_part() {
    for former in [false, true] {
        with_length(SIZES, if former { SIZES.former_words() } else { SIZES.image_words() }, |store| {
            // word 0 was changed from 7 to 9 by a transaction with timestamp 2
            store.nvm[1] = 9;
            store.nvm[3..7].copy_from_slice(&[11, 7, 32_777, 3]);
            if !former {
                store.nvm[139..].copy_from_slice(&[2, 2, 34, 139]);
            }
            let mut within = |limit: usize| if former { store.recover_former_within(8, limit) } else { store.recover_within(8, limit) };
            assert_eq!((within(0), within(1)), (Ok(None), Ok(None)));
            assert_eq!(within(2), Ok(None));
            // word 0 has its old value, and the base word is the clock: nothing is left to undo. The base word again, and of two slots three words are cleared
            assert_eq!(within(4), Ok(None));
            assert_eq!(within(usize::MAX), Ok(Some(Recovery { boundary: None, undone: 0, torn: 1 })));
            assert_eq!((&store.nvm[..7], store.cache[1], store.record[LAG_WORD]), (&[2, 7, 0, 0, 0, 0, 0][..], 7, 8));
        });
    }
}

/// A store that was dropped goes on where it was. No step is possible without a start, or with buffers that do not fit.
#[test]
fn a_store_is_taken_up_again() {
    with_store(SIZES, |lent| {
        let before = all_words(lent);
        assert_eq!(Store::attach(&mut lent.buffers(), SIZES).expect_err("no start"), Refusal::Record);
        assert_eq!((lent.mark(0), lent.write_back(0)), (Err(Refusal::Record), Err(Refusal::Record)));
        assert!(all_words(lent) == before);
        assert_eq!(lent.format(GREATEST_LAG, &[0, 0]), Ok(()));
        assert_eq!(lent.log(0, &SET_0_TO_2), Ok(Log::Logged { count: 1, stamp: 2 }));
        let before = all_words(lent);
        for other in [sizes(2, 2, 36), sizes(2, 1, 34), sizes(1, 2, 34)] {
            assert_eq!(Store::attach(&mut lent.buffers(), other).expect_err("other sizes"), Refusal::Size);
        }
        assert_eq!(lent.started(|store| store.holds(0)), Ok(true));
        assert!(all_words(lent) == before);
        lent.flags.pop();
        assert_eq!(lent.redo(0), Err(Refusal::Size));
        lent.flags.push(0);
        assert_eq!(lent.redo(0), Ok(Redo::Committed { stamp: 4 }));
        cut_power(lent);
        assert_eq!(lent.redo(0), Err(Refusal::Record));
    });
}

/// The record's words are there still where a recovery is cut, and would pass for a store's.
#[test]
fn a_store_is_not_taken_up_after_a_recovery_that_was_cut() {
    with_store(SIZES, |lent| {
        assert_eq!(lent.format(GREATEST_LAG, &[0, 0]), Ok(()));
        commit(lent, 0, &SET_0_TO_2, 4);
        assert_eq!(lent.drain(0), Ok(()));
        assert_eq!(lent.recover_within(GREATEST_LAG, 1), Ok(None));
        assert_eq!(Store::attach(&mut lent.buffers(), SIZES).expect_err("no record"), Refusal::Record);
        assert_eq!(lent.mark(0), Err(Refusal::Record));
        assert_eq!(lent.recover(GREATEST_LAG), finished(Some(4), 1));
        assert_eq!(lent.mark(0).map(|mark| mark.dropped), Ok(false));
    });
}

// ---- What a store tells, and when a commit is safe ----

/// Of equal floors, which no run of calls leaves, the lower lane's.
#[test]
fn the_lane_that_holds_the_others_back() {
    with_store(SIZES, |lent| {
        let least = |lent: &mut Lent| lent.started(|store| store.least_floor()).unwrap();
        assert_eq!(lent.format(GREATEST_LAG, &[0, 0]), Ok(()));
        assert_eq!(least(lent), None);
        assert_eq!(lent.log(1, &SET_0_TO_2), Ok(Log::Logged { count: 1, stamp: 2 }));
        assert_eq!(least(lent), Some((1, 2)));
        assert_eq!(lent.log(0, &SET_0_TO_2), Ok(Log::Logged { count: 1, stamp: 4 }));
        assert_eq!(least(lent), Some((1, 2)));
        assert_eq!((lent.mark(1).map(|mark| mark.dropped), lent.drain(1)), (Ok(true), Ok(())));
        assert_eq!(least(lent), Some((0, 4)));
        // lane 1's floor, set and made equal
        lent.record[2 + raw::LANE_WORDS + 6..][..2].copy_from_slice(&[1, 4]);
        assert_eq!(least(lent), Some((0, 4)));
        lent.record[2 + raw::LANE_WORDS + 7] = 2;
        assert_eq!(least(lent), Some((1, 2)));
    });
}

#[test]
fn what_the_record_tells() {
    with_lane_1_logged(|lent| {
        let tells = |store: &mut Store| (store.clock(), store.last_commit(), [0, 1, 2].map(|lane| store.floor(lane)), [0, 1, 2].map(|lane| store.holds(lane)));
        assert_eq!(lent.started(tells), Ok((2, 0, [None, Some(2), None], [false, true, false])));
        commit(lent, 0, &SET_0_TO_5, 6);
        assert_eq!(lent.started(tells), Ok((6, 6, [Some(4), Some(2), None], [false, true, false])));
        assert_eq!((floor(lent, 0), floor(lent, 1)), (Some(4), Some(2)));
        assert_eq!(lent.started(|store| (store.words().to_vec(), store.max_lag(), store.locked())), Ok((vec![5, 0, 0, 0], GREATEST_LAG, None)));
        assert!(matches!(lent.lock(0, &adds(20)), Ok(Lock::Taken(_))));
        assert_eq!(lent.started(|store| store.locked()), Ok(Some(Locked { lane: 0, stamp: 8, left: 20 })));
        assert!(lent.proceed(0).is_ok() && lent.proceed(0).is_ok());
        assert_eq!(lent.started(|store| store.locked()), Ok(Some(Locked { lane: 0, stamp: 8, left: 4 })));
        assert_eq!(lent.started(|store| store.words().to_vec()), Ok(vec![9, 4, 4, 4]));
        assert_eq!(
            lent.started(|store| format!("{store:?}")).unwrap(),
            "Store { sizes: Sizes { words: 4, lanes: 2, slots: 64 }, clock: 8, last_commit: 6, .. }"
        );
    });
}

/// Log, Redo, Drain and a cut: the commit is undone. Log, Redo, Settle, Drain and a cut: it is kept. And without the last Drain it is undone.
#[test]
fn a_drain_alone_keeps_no_commit() {
    type Steps = fn(&mut Store);
    let ways: [(Steps, bool); 4] = [
        (|store| assert_eq!(store.drain(0), Ok(())), false),
        (|store| assert_eq!((store.drain(0), store.drain(0)), (Ok(()), Ok(()))), false),
        (|store| assert_eq!(store.settle(0), Ok(6)), false),
        (|store| assert_eq!((store.settle(0), store.drain(0)), (Ok(6), Ok(()))), true),
    ];
    for (steps, kept) in ways {
        with_store(sizes(2, 1, 34), |lent| {
            assert_eq!(lent.format(GREATEST_LAG, &[1, 1]), Ok(()));
            let run = |store: &mut Store| {
                assert_eq!(store.log(0, &[Set { to: 0, value: 2 }, Set { to: 1, value: 2 }]), Ok(Log::Logged { count: 2, stamp: 2 }));
                assert_eq!(store.redo(0), Ok(Redo::Committed { stamp: 4 }));
                steps(store);
                assert_eq!((store.words(), store.is_safe(4)), (&[2, 2][..], kept));
            };
            assert_eq!(lent.started(run), Ok(()));
            if kept {
                cut_and_recover(lent, None, 0);
                assert_eq!(lent.nvm[1..3], [2, 2]);
            } else {
                cut_and_recover(lent, Some(4), 2);
                assert_eq!(lent.nvm[1..3], [1, 1]);
            }
        });
    }
}

/// Each premise by itself: not above the clock, below the lock's timestamp while it is held, below each floor.
#[test]
fn when_a_commit_is_safe() {
    with_store(LONG, |lent| {
        assert_eq!(lent.format(GREATEST_LAG, &[0; 4]), Ok(()));
        let safe = |lent: &mut Lent, stamps: [u64; 3]| lent.started(|store| stamps.map(|stamp| store.is_safe(stamp))).unwrap();
        // no floor, no lock, and the clock at 0
        assert_eq!(safe(lent, [0, 1, 2]), [false, false, false]);
        commit(lent, 0, &SET_0_TO_2, 4);
        // the floor is the Log's; 0 is the timestamp of no commit
        assert_eq!((floor(lent, 0), safe(lent, [0, 1, 2])), (Some(2), [false, true, false]));
        assert_eq!(lent.drain(0), Ok(()));
        assert_eq!((floor(lent, 0), safe(lent, [2, 4, 6])), (Some(4), [true, false, false]));
        assert_eq!(lent.started(|store| store.persist(0)), Ok(Ok(6)));
        assert_eq!((floor(lent, 0), safe(lent, [4, 6, 8])), (None, [true, true, false]));
        // lane 1's floor, at 8
        assert_eq!(lent.log(1, &SET_1_TO_7), Ok(Log::Logged { count: 1, stamp: 8 }));
        assert_eq!(safe(lent, [6, 8, 10]), [true, false, false]);
        assert_eq!((lent.mark(1), lent.drain(1)), (Ok(Mark { stamp: 10, dropped: true }), Ok(())));
        assert_eq!(safe(lent, [8, 10, 12]), [true, true, false]);
        // the lock's timestamp is the clock's, no lane has a floor, and the commit with it is still to come
        assert!(matches!(lent.lock(0, &adds(1)), Ok(Lock::Taken(Progress { left: 1, stamp: 12 }))));
        assert_eq!((floor(lent, 0), floor(lent, 1), safe(lent, [10, 11, 12])), (None, None, [true, true, false]));
        assert_eq!((lent.proceed(0).map(|progress| progress.left), lent.proceed(0).map(|progress| progress.left)), (Ok(1), Ok(0)));
        assert_eq!(safe(lent, [10, 12, 14]), [true, false, false]);
        assert_eq!(lent.started(|store| store.persist(0)), Ok(Ok(14)));
        assert_eq!(safe(lent, [12, 14, 16]), [true, true, false]);
    });
}

/// What they leave where they are refused: all as it was, but where the clock gives out between Log and Redo.
#[test]
fn commit_and_persist_by_one_call() {
    with_store(SIZES, |lent| {
        assert_eq!(lent.format(6, &[0, 5]), Ok(()));
        let commit = |lent: &mut Lent, lane: usize, txn: &[Instruction]| lent.started(|store| store.commit(lane, txn)).unwrap();
        let persist = |lent: &mut Lent, lane: usize| lent.started(|store| store.persist(lane)).unwrap();
        assert_eq!(commit(lent, 0, &SET_0_TO_2), Ok(Some(4)));
        assert_eq!(lent.log(1, &SET_1_TO_7), Ok(Log::Logged { count: 1, stamp: 6 }));
        let before = all_words(lent);
        assert_eq!(
            (commit(lent, 0, &[]), commit(lent, 2, &SET_0_TO_2), commit(lent, 1, &SET_0_TO_2)),
            (Err(Refusal::Txn), Err(Refusal::Lane), Err(Refusal::Logged))
        );
        assert_eq!((persist(lent, 2), persist(lent, 1)), (Err(Refusal::Lane), Err(Refusal::Logged)));
        assert!(all_words(lent) == before);
        assert_eq!(commit(lent, 0, &SET_0_TO_5), Ok(Some(10)));
        // lane 1's floor is 6, and the next timestamps 12 and 14
        assert_eq!(persist(lent, 0), Ok(12));
        let before = all_words(lent);
        assert_eq!((commit(lent, 0, &SET_0_TO_2), persist(lent, 0)), (Err(Refusal::LagPassed), Err(Refusal::LagPassed)));
        assert!(all_words(lent) == before);
        assert_eq!(commit(lent, 0, &[SkipIfZero { word: 0, count: 1 }, Copy { to: 0, from: 0 }]), Err(Refusal::LagPassed));
        assert_eq!((lent.mark(1), persist(lent, 1)), (Ok(Mark { stamp: 14, dropped: true }), Ok(16)));
        assert_eq!(commit(lent, 1, &[Set { to: 0, value: 0 }]), Ok(Some(20)));
        assert_eq!((commit(lent, 0, &PASS_OVER), lent.record[0]), (Ok(None), 20));
        // the last timestamp but one is taken, and the lane holds the transaction
        lent.record[0] = u64::MAX - 3;
        lent.record[LAG_WORD] = GREATEST_LAG;
        assert_eq!(persist(lent, 1), Err(Refusal::LagPassed));
        assert_eq!(lent.started(|store| (store.mark(1).is_ok(), store.drain(1), store.holds(0))), Ok((true, Ok(()), false)));
        lent.record[0] = u64::MAX - 3;
        assert_eq!(commit(lent, 0, &SET_0_TO_2), Err(Refusal::Spent));
        assert_eq!(lent.started(|store| (store.clock(), store.holds(0), store.words()[0])), Ok((u64::MAX - 1, true, 0)));
    });
}
