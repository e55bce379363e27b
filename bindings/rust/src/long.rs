//! Long transactions, which run under the store's lock.

use crate::instruction::{Encoded, Instruction, MAX_LONG_INSTRUCTIONS};
use crate::raw::{self, LOCK_WORD};
use crate::{Refusal, Store};

/// What Lock answers.
#[derive(Debug, Clone, Copy, PartialEq, Eq)]
pub enum Lock {
    /// The transaction writes nothing. The lane is drained, the lock stays free, and no timestamp was taken.
    NoWrites,
    /// The lane has the lock, for so many writes, none of which is logged yet.
    Taken(Progress),
}

/// How far a long transaction is. Where no writes are left it is committed, with this timestamp, and the lock is free.
#[derive(Debug, Clone, Copy, PartialEq, Eq)]
pub struct Progress {
    pub left: u64,
    pub stamp: u64,
}

/// Who has the lock.
#[derive(Debug, Clone, Copy, PartialEq, Eq)]
pub struct Locked {
    pub lane: usize,
    pub stamp: u64,
    /// How many writes are not yet made.
    pub left: u64,
}

impl<'a> Store<'a> {
    /// Takes the lock as [`Store::lock`] does, and gives the long transaction to be run step by step; none where it writes nothing.
    ///
    /// ```
    /// # use vandzulge::{Buffers, Instruction, Refusal, Sizes, Store, GREATEST_LAG, RECORD_WORDS};
    /// # fn main() -> Result<(), Refusal> {
    /// # let sizes = Sizes::new(100, 1, 85)?;
    /// # let (cache, nvm, flags) = (&mut vec![0; sizes.image_words()], &mut vec![0; sizes.image_words()], &mut vec![0; sizes.image_words()]);
    /// # let mut buffers = Buffers { cache, nvm, flags, record: &mut [0; RECORD_WORDS] };
    /// let mut store = Store::format(&mut buffers, sizes, GREATEST_LAG, &[0; 100])?;
    /// let sets: Vec<Instruction> = (0..40).map(|to| Instruction::Set { to, value: 7 }).collect();
    /// if let Some(mut long) = store.long(0, &sets)? {
    ///     // logs the first 16 writes, and makes them
    ///     long.step()?;
    ///     assert_eq!(long.step()?.left, 24);
    ///     long.finish()?;
    /// }
    /// assert!(store.words()[..40].iter().all(|&word| word == 7));
    /// # Ok(())
    /// # }
    /// ```
    pub fn long(&mut self, lane: usize, txn: &[Instruction]) -> Result<Option<LongTxn<'_, 'a>>, Refusal> {
        Ok(match self.lock(lane, txn)? {
            Lock::NoWrites => None,
            Lock::Taken(progress) => Some(LongTxn { store: self, lane, progress }),
        })
    }

    /// The long transaction that has the lock, as the record tells it, where the lock is held; for one that was let go before its last step.
    pub fn resume(&mut self) -> Option<LongTxn<'_, 'a>> {
        let Locked { lane, stamp, left } = self.locked()?;
        Some(LongTxn { store: self, lane, progress: Progress { left, stamp } })
    }

    /// Takes the lock for a transaction of 1 to 64 instructions, which it runs without leaving a change; its writes are kept in the record. [`Store::proceed`] makes them.
    pub fn lock(&mut self, lane: usize, txn: &[Instruction]) -> Result<Lock, Refusal> {
        // of a longer one so much that the library refuses it
        let txn = Encoded::<{ MAX_LONG_INSTRUCTIONS + 1 }>::new(txn);
        Ok(match self.txn_step(raw::lock, lane, txn.words())? {
            [0, ..] => Lock::NoWrites,
            [left, stamp, ..] => Lock::Taken(Progress { left, stamp }),
        })
    }

    /// Continue: the next step of the lane's long transaction, by turns the log of a part, of at most 16 writes, and the writes of that part. The last writes commit it and free the
    /// lock. Neither a spent clock nor the log's slots stop it.
    pub fn proceed(&mut self, lane: usize) -> Result<Progress, Refusal> {
        let answer = self.step(raw::proceed, lane)?;
        Ok(Progress { left: answer[0], stamp: answer[1] })
    }

    /// Who has the lock, where it is held.
    pub fn locked(&self) -> Option<Locked> {
        match self.record[LOCK_WORD..] {
            [held, lane, stamp, count, _, written, ..] if held != 0 => Some(Locked { lane: lane as usize, stamp, left: count.saturating_sub(written) }),
            _ => None,
        }
    }
}

/// A long transaction and the store that it has locked. Dropping it frees no lock: [`Store::resume`] gives it again, and only its last step or a start frees the lock.
#[derive(Debug)]
pub struct LongTxn<'s, 'a> {
    store: &'s mut Store<'a>,
    lane: usize,
    progress: Progress,
}

impl<'a> LongTxn<'_, 'a> {
    pub fn lane(&self) -> usize {
        self.lane
    }

    /// The timestamp of all its parts, with which it is committed.
    pub fn stamp(&self) -> u64 {
        self.progress.stamp
    }

    /// How many writes are not yet made.
    pub fn left(&self) -> u64 {
        self.progress.left
    }

    /// The store, for drains and write-backs between two steps, and to look at its words.
    pub fn store(&mut self) -> &mut Store<'a> {
        self.store
    }

    /// The next step, as [`Store::proceed`] makes it. After the one that leaves no writes there is none, and a further one is refused with [`Refusal::Idle`].
    pub fn step(&mut self) -> Result<Progress, Refusal> {
        self.progress = self.store.proceed(self.lane)?;
        Ok(self.progress)
    }

    /// All steps that are left. The timestamp of the commit.
    pub fn finish(mut self) -> Result<u64, Refusal> {
        while self.left() > 0 {
            self.step()?;
        }
        Ok(self.stamp())
    }
}
