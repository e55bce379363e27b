//! A store that has started: what its calls are lent, its starts, its steps, and what the record tells.

use crate::instruction::{Encoded, Instruction, MAX_INSTRUCTIONS};
use crate::raw::{self, ANSWER_WORDS, LAG_WORD, LANE_WORDS, TRAILER_WORDS};
use crate::{Refusal, Sizes};
use core::fmt;

/// Words of a record.
pub const RECORD_WORDS: usize = 457;
/// The greatest lag limit, which practically never binds.
pub const GREATEST_LAG: u64 = 1 << 32;
pub const LEAST_LAG: u64 = 2;

/// What a store is lent, by name. The first three have one length, [`Sizes::image_words`]; what they and the record hold before Format does not matter.
///
/// The buffers are free again when the store is dropped, and after a refused start. Nobody else may write them between two calls, but for write-backs.
#[derive(Debug)]
pub struct Buffers<'a> {
    /// The cached image: the base word, the data words, each lane's log, then the trailer.
    pub cache: &'a mut [u64],
    /// The non-volatile memory behind it: all that recovery needs.
    pub nvm: &'a mut [u64],
    /// One byte for each word of the image: bit L says that lane L has flushed it.
    pub flags: &'a mut [u8],
    /// What the calls keep.
    pub record: &'a mut [u64; RECORD_WORDS],
}

/// What Log answers.
#[derive(Debug, Clone, Copy, PartialEq, Eq)]
pub enum Log {
    /// The transaction writes nothing. The lane is drained and stays idle, and no timestamp was taken.
    NoWrites,
    /// So many writes are logged, and the lane holds the transaction.
    Logged { count: u64, stamp: u64 },
    /// The transaction was the empty one: the lane is drained and marked, with this timestamp, and stays idle.
    Settled { stamp: u64 },
}

/// What Redo answers.
#[derive(Debug, Clone, Copy, PartialEq, Eq)]
pub enum Redo {
    Committed {
        stamp: u64,
    },
    /// There is a commit since the transaction was logged. The lane still holds it: [`Store::validate`] is the way on, or [`Store::mark`], which drops it.
    Stale,
}

/// What Validate answers.
#[derive(Debug, Clone, Copy, PartialEq, Eq)]
pub enum Validate {
    Committed {
        stamp: u64,
    },
    /// The transaction would write other words than were logged, or over other values. The lane is idle: [`Store::log`] is the way on.
    Changed,
}

/// What Mark answers.
#[derive(Debug, Clone, Copy, PartialEq, Eq)]
pub struct Mark {
    pub stamp: u64,
    /// Whether a logged transaction of the lane was dropped.
    pub dropped: bool,
}

/// What a recovery that finished did.
#[derive(Debug, Clone, Copy, PartialEq, Eq)]
pub struct Recovery {
    /// Commits at or above it are undone; none where no lane gave one and this call undid nothing.
    pub boundary: Option<u64>,
    /// How many entries were undone.
    pub undone: u64,
    /// How many log slots were torn in the non-volatile memory that this call found; by itself no sign of damage.
    pub torn: u64,
}

/// A store that has started, by [`Store::format`] or a recovery that finished, or was taken up by [`Store::attach`]. After a refusal all is as it was before the call.
///
/// ```
/// # use vandzulge::{Buffers, Instruction, Log, Redo, Refusal, Sizes, Store, Validate, GREATEST_LAG, RECORD_WORDS};
/// # fn main() -> Result<(), Refusal> {
/// # let sizes = Sizes::new(2, 2, 34)?;
/// # let (cache, nvm, flags) = (&mut vec![0; sizes.image_words()], &mut vec![0; sizes.image_words()], &mut vec![0; sizes.image_words()]);
/// # let mut buffers = Buffers { cache, nvm, flags, record: &mut [0; RECORD_WORDS] };
/// let mut store = Store::format(&mut buffers, sizes, GREATEST_LAG, &[5, 0])?;
/// let (copy, set) = (Instruction::Copy { to: 1, from: 0 }, Instruction::Set { to: 0, value: 7 });
///
/// // lane 0 logs a copy, and before it commits that, lane 1 changes the word
/// assert_eq!(store.log(0, &[copy])?, Log::Logged { count: 1, stamp: 2 });
/// assert_eq!(store.log(1, &[set])?, Log::Logged { count: 1, stamp: 4 });
/// assert_eq!(store.redo(1)?, Redo::Committed { stamp: 6 });
/// // what lane 0 computed is stale, and is computed anew
/// assert_eq!(store.redo(0)?, Redo::Stale);
/// assert_eq!(store.validate(0, &[copy])?, Validate::Committed { stamp: 8 });
/// assert_eq!(store.words(), [7, 7]);
///
/// // both commits are safe when both lanes are settled and drained
/// store.persist(0)?;
/// assert_eq!((store.floor(0), store.floor(1), store.is_safe(8)), (None, Some(4), false));
/// store.persist(1)?;
/// assert_eq!((store.floor(0), store.floor(1), store.is_safe(8)), (None, None, true));
/// # Ok(())
/// # }
/// ```
pub struct Store<'a> {
    sizes: Sizes,
    cache: &'a mut [u64],
    nvm: &'a mut [u64],
    flags: &'a mut [u8],
    pub(crate) record: &'a mut [u64; RECORD_WORDS],
}

pub(crate) type Answer = [u64; ANSWER_WORDS];
type Step = fn(usize, usize, usize, &mut [u64], &mut [u64], &mut [u8], &mut [u64], &mut [u64], usize) -> u64;
type TxnStep = fn(usize, usize, usize, &mut [u64], &mut [u64], &mut [u8], &mut [u64], &mut [u64], usize, &[u64]) -> u64;

/// Starts.
impl<'a> Store<'a> {
    /// Makes a new store of the given data words, with this lag limit. Refused with [`Refusal::Size`] and [`Refusal::LagRange`]. Not safe against power cuts: the memory holds a store
    /// when it is done.
    pub fn format(buffers: &'a mut Buffers<'_>, sizes: Sizes, max_lag: u64, start: &[u64]) -> Result<Store<'a>, Refusal> {
        let Buffers { cache, nvm, flags, record } = buffers;
        Refusal::taken(raw::format(sizes.words(), sizes.lanes(), sizes.slots(), max_lag, start, cache, nvm, flags, *record))?;
        Ok(Store::lent(buffers, sizes))
    }

    /// Makes a store whole from non-volatile memory alone, at the end of which its sizes stand. The lag limit is that of the store from now on, and need not be the one before the
    /// power cut. Refused with [`Refusal::Size`], [`Refusal::Trailer`], [`Refusal::LagRange`] and [`Refusal::OddBase`].
    ///
    /// Power may fail in it as often as it likes: the next recovery leaves the same words.
    pub fn recover(buffers: &'a mut Buffers<'_>, max_lag: u64) -> Result<(Store<'a>, Recovery), Refusal> {
        // no recovery has so many stores
        let (sizes, answer) = recover_stores(buffers, max_lag, usize::MAX)?;
        Ok((Store::lent(buffers, sizes), Recovery::of(answer)))
    }

    /// The same with at most so many stores to the non-volatile memory, as if power failed after them. None where stores remain: then the record is zeros, and only a recovery or a
    /// Format may follow.
    /// Each recovery begins anew, and what is stored already counts: with the same limit it gets no further.
    ///
    /// ```
    /// # use vandzulge::{Buffers, Instruction, Refusal, Sizes, Store, GREATEST_LAG, RECORD_WORDS};
    /// # fn main() -> Result<(), Refusal> {
    /// # let sizes = Sizes::new(2, 1, 34)?;
    /// # let (cache, nvm, flags) = (&mut vec![0; sizes.image_words()], &mut vec![0; sizes.image_words()], &mut vec![0; sizes.image_words()]);
    /// # let mut buffers = Buffers { cache, nvm, flags, record: &mut [0; RECORD_WORDS] };
    /// # let mut store = Store::format(&mut buffers, sizes, GREATEST_LAG, &[5, 0])?;
    /// # store.commit(0, &[Instruction::Set { to: 0, value: 7 }])?;
    /// # store.drain(0)?;
    /// for limit in 0..10 {
    ///     assert!(Store::recover_within(&mut buffers, GREATEST_LAG, limit)?.is_none());
    /// }
    /// let (store, _) = Store::recover(&mut buffers, GREATEST_LAG)?;
    /// assert_eq!(store.words(), [5, 0]);
    /// # Ok(())
    /// # }
    /// ```
    pub fn recover_within(buffers: &'a mut Buffers<'_>, max_lag: u64, limit: usize) -> Result<Option<(Store<'a>, Recovery)>, Refusal> {
        let (sizes, answer) = recover_stores(buffers, max_lag, limit)?;
        Ok((answer[0] != 0).then(|| (Store::lent(buffers, sizes), Recovery::of(answer))))
    }

    /// Recovery of an image of the former length, which has no trailer, with buffers of [`Sizes::former_words`]. The sizes must be those of the image.
    pub fn recover_former(buffers: &'a mut Buffers<'_>, sizes: Sizes, max_lag: u64) -> Result<(Store<'a>, Recovery), Refusal> {
        let answer = recover_former_stores(buffers, sizes, max_lag, usize::MAX)?;
        Ok((Store::lent(buffers, sizes), Recovery::of(answer)))
    }

    /// The same with at most so many stores, as [`Store::recover_within`].
    pub fn recover_former_within(buffers: &'a mut Buffers<'_>, sizes: Sizes, max_lag: u64, limit: usize) -> Result<Option<(Store<'a>, Recovery)>, Refusal> {
        let answer = recover_former_stores(buffers, sizes, max_lag, limit)?;
        Ok((answer[0] != 0).then(|| (Store::lent(buffers, sizes), Recovery::of(answer))))
    }

    /// Takes up a store that was dropped, with its [`Store::sizes`] and the buffers as it left them: for those who keep the buffers and not the store. No start, and not for after a
    /// power cut, which loses the record, nor after a recovery that was cut, which leaves a record of zeros. Lengths and record are checked, and refused with [`Refusal::Size`] and
    /// [`Refusal::Record`]; a record of zeros is none. That nothing else was done to the buffers is the caller's word: no check could tell.
    pub fn attach(buffers: &'a mut Buffers<'_>, sizes: Sizes) -> Result<Store<'a>, Refusal> {
        let mut store = Store::lent(buffers, sizes);
        // a drain of a lane that no store has: the lane is looked at last, and nothing is touched
        match store.drain(usize::MAX) {
            Ok(()) | Err(Refusal::Lane) => Ok(store),
            Err(refusal) => Err(refusal),
        }
    }

    fn lent(buffers: &'a mut Buffers<'_>, sizes: Sizes) -> Store<'a> {
        let Buffers { cache, nvm, flags, record } = buffers;
        Store { sizes, cache, nvm, flags, record }
    }
}

/// Calls.
impl Store<'_> {
    /// Logs a transaction of 1 to 16 instructions and commits it: its timestamp, none where it writes nothing. It is safe when [`Store::is_safe`] says so.
    ///
    /// Refused as [`Store::log`] is, and then all is as it was, but for one case: where the clock has a timestamp left for the log and none for the commit it is refused with
    /// [`Refusal::Spent`], and the lane holds the transaction. The empty one is refused with [`Refusal::Txn`].
    pub fn commit(&mut self, lane: usize, txn: &[Instruction]) -> Result<Option<u64>, Refusal> {
        if txn.is_empty() {
            return Err(Refusal::Txn);
        }
        if self.log(lane, txn)? == Log::NoWrites {
            return Ok(None);
        }
        match self.redo(lane)? {
            Redo::Committed { stamp } => Ok(Some(stamp)),
            // not here: no commit stands between the two calls
            Redo::Stale => Err(Refusal::Logged),
        }
    }

    /// Settles the lane and drains it: from then on no cut loses what any lane had committed before, as long as each other lane that has a floor has it above those commits'
    /// timestamps. With one lane every commit so far is safe. The mark's timestamp. Refused as [`Store::settle`] is, and then all is as it was.
    pub fn persist(&mut self, lane: usize) -> Result<u64, Refusal> {
        let stamp = self.settle(lane)?;
        self.drain(lane)?;
        Ok(stamp)
    }

    /// Runs a transaction of 1 to 16 instructions without leaving a change, and logs its writes; the empty one settles the lane, as [`Store::settle`] does.
    ///
    /// Where it is refused with [`Refusal::LagPassed`] or [`Refusal::Overwrite`], drain this lane, mark and drain that of [`Store::least_floor`], and try again; each time a floor ends.
    /// The mark drops a transaction that that lane holds.
    pub fn log(&mut self, lane: usize, txn: &[Instruction]) -> Result<Log, Refusal> {
        // of a longer one so much that the library refuses it
        let txn = Encoded::<{ MAX_INSTRUCTIONS + 1 }>::new(txn);
        Ok(match self.txn_step(raw::log, lane, txn.words())? {
            [0, 0, ..] => Log::NoWrites,
            [0, stamp, ..] => Log::Settled { stamp },
            [count, stamp, ..] => Log::Logged { count, stamp },
        })
    }

    /// Log of the empty transaction: drains the lane and appends a mark, whose timestamp it answers. After one later drain of the lane, that of a step of it too, no cut loses what any
    /// lane had committed before, as long as each other lane that has a floor has it above those commits' timestamps. Unlike [`Store::mark`] it drops nothing, and is refused where the
    /// lane holds a transaction; and the lag limit binds it.
    pub fn settle(&mut self, lane: usize) -> Result<u64, Refusal> {
        Ok(self.txn_step(raw::log, lane, &[])?[1])
    }

    /// Commits the lane's logged transaction with the values that Log computed; also one with a POKE, logged before that was withdrawn.
    pub fn redo(&mut self, lane: usize) -> Result<Redo, Refusal> {
        Ok(match self.step(raw::redo, lane)? {
            [0, ..] => Redo::Stale,
            [_, stamp, ..] => Redo::Committed { stamp },
        })
    }

    /// Commits the given transaction with its present values, if it would write the words that were logged, over the values that were logged; what it writes may be another value by now.
    pub fn validate(&mut self, lane: usize, txn: &[Instruction]) -> Result<Validate, Refusal> {
        let txn = Encoded::<{ MAX_INSTRUCTIONS + 1 }>::new(txn);
        Ok(match self.txn_step(raw::validate, lane, txn.words())? {
            [0, ..] => Validate::Changed,
            [_, stamp, ..] => Validate::Committed { stamp },
        })
    }

    /// Appends an empty sequence, and drops the lane's logged transaction. The lane's next drain ends its floor.
    pub fn mark(&mut self, lane: usize) -> Result<Mark, Refusal> {
        let answer = self.step(raw::mark, lane)?;
        Ok(Mark { stamp: answer[1], dropped: answer[0] != 0 })
    }

    /// Copies every word that the lane has flushed to its cell. Its floor becomes the newest timestamp in its log, where there is one, and ends where that is a mark.
    pub fn drain(&mut self, lane: usize) -> Result<(), Refusal> {
        let [words, lanes, slots] = self.sizes_given();
        Refusal::taken(raw::drain(words, lanes, slots, self.cache, self.nvm, self.flags, self.record, lane))
    }

    /// Copies one word of the cached image to its cell, also one of the trailer.
    pub fn write_back(&mut self, word: usize) -> Result<(), Refusal> {
        let [words, lanes, slots] = self.sizes_given();
        Refusal::taken(raw::write_back(words, lanes, slots, self.cache, self.nvm, self.flags, word))
    }

    pub(crate) fn step(&mut self, call: Step, lane: usize) -> Result<Answer, Refusal> {
        let [words, lanes, slots] = self.sizes_given();
        let mut answer = [0; ANSWER_WORDS];
        Refusal::taken(call(words, lanes, slots, self.cache, self.nvm, self.flags, self.record, &mut answer, lane))?;
        Ok(answer)
    }

    pub(crate) fn txn_step(&mut self, call: TxnStep, lane: usize, txn: &[u64]) -> Result<Answer, Refusal> {
        let [words, lanes, slots] = self.sizes_given();
        let mut answer = [0; ANSWER_WORDS];
        Refusal::taken(call(words, lanes, slots, self.cache, self.nvm, self.flags, self.record, &mut answer, lane, txn))?;
        Ok(answer)
    }

    fn sizes_given(&self) -> [usize; 3] {
        [self.sizes.words(), self.sizes.lanes(), self.sizes.slots()]
    }
}

/// What the store tells, without a call of the library.
impl Store<'_> {
    pub fn sizes(&self) -> Sizes {
        self.sizes
    }

    /// The data words as cached: the start words with all commits, and with the parts written so far while the lock is held.
    pub fn words(&self) -> &[u64] {
        &self.cache[1..=self.sizes.words()]
    }

    /// The newest timestamp.
    pub fn clock(&self) -> u64 {
        self.record[0]
    }

    /// The timestamp of the last commit; after a start, the clock's of that time.
    pub fn last_commit(&self) -> u64 {
        self.record[1]
    }

    pub fn max_lag(&self) -> u64 {
        self.record[LAG_WORD]
    }

    /// The lane's floor: at no cut does the lane give less. None where it gives nothing, and where there is no such lane.
    pub fn floor(&self, lane: usize) -> Option<u64> {
        let words = self.lane_words(lane)?;
        (words[6] != 0).then_some(words[7])
    }

    /// The lane with the least floor, of equal ones the lower, which holds the others back, and that floor; none where no lane has one. Where a call is refused with
    /// [`Refusal::Overwrite`] or [`Refusal::LagPassed`], drain its lane, then mark and drain this one, and try again: each time a floor ends. Mark drops a transaction that it holds.
    pub fn least_floor(&self) -> Option<(usize, u64)> {
        (0..self.sizes.lanes()).filter_map(|lane| Some((lane, self.floor(lane)?))).min_by_key(|&(lane, floor)| (floor, lane))
    }

    /// Whether the lane holds a logged transaction.
    pub fn holds(&self, lane: usize) -> bool {
        self.lane_words(lane).is_some_and(|words| words[0] != 0)
    }

    /// Can no cut lose a commit with this timestamp any more? So it is, and stays, where the timestamp is not above the clock, below the lock's while the lock is held, and below the
    /// floor of each lane that has one. Every commit up to it is then safe too. 0, the timestamp of no commit, is not. Of commits since the last start only: of one that a recovery has
    /// undone it says nothing.
    ///
    /// Proved of stores from Format on; and all stores to `nvm` so far must be persistent by now, which is the platform's to see to.
    pub fn is_safe(&self, stamp: u64) -> bool {
        let above = |floor: Option<u64>| floor.is_none_or(|floor| floor > stamp);
        (1..=self.clock()).contains(&stamp) && above(self.locked().map(|lock| lock.stamp)) && (0..self.sizes.lanes()).all(|lane| above(self.floor(lane)))
    }

    fn lane_words(&self, lane: usize) -> Option<&[u64]> {
        self.record[2..LAG_WORD].chunks_exact(LANE_WORDS).take(self.sizes.lanes()).nth(lane)
    }
}

impl fmt::Debug for Store<'_> {
    fn fmt(&self, out: &mut fmt::Formatter<'_>) -> fmt::Result {
        out.debug_struct("Store").field("sizes", &self.sizes).field("clock", &self.clock()).field("last_commit", &self.last_commit()).finish_non_exhaustive()
    }
}

impl Recovery {
    /// Of the answer to a recovery that finished.
    fn of([found, boundary, undone, torn]: Answer) -> Recovery {
        Recovery { boundary: (found > 1).then_some(boundary), undone, torn }
    }
}

/// Recovery by the trailer. The sizes that it tells, and the answer.
fn recover_stores(buffers: &mut Buffers<'_>, max_lag: u64, limit: usize) -> Result<(Sizes, Answer), Refusal> {
    let Buffers { cache, nvm, flags, record } = buffers;
    let mut answer = [0; ANSWER_WORDS];
    Refusal::taken(raw::recover_read(max_lag, cache, nvm, flags, *record, &mut answer, limit))?;
    forget(answer, record);
    // the library has found a trailer and its sizes in range, and recovery does not store to it
    let &[words, lanes, slots, _] = nvm.last_chunk::<TRAILER_WORDS>().ok_or(Refusal::Trailer)?;
    Ok((Sizes::new(words as usize, lanes as usize, slots as usize)?, answer))
}

fn recover_former_stores(buffers: &mut Buffers<'_>, sizes: Sizes, max_lag: u64, limit: usize) -> Result<Answer, Refusal> {
    let Buffers { cache, nvm, flags, record } = buffers;
    let mut answer = [0; ANSWER_WORDS];
    Refusal::taken(raw::recover(sizes.words(), sizes.lanes(), sizes.slots(), max_lag, cache, nvm, flags, *record, &mut answer, limit))?;
    forget(answer, record);
    Ok(answer)
}

/// A recovery that is cut leaves the words of the record as they were, though they are none any more: with zeros there no one takes up the store that they were of.
fn forget(answer: Answer, record: &mut [u64; RECORD_WORDS]) {
    if answer[0] == 0 {
        record.fill(0);
    }
}
