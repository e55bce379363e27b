//! What the tests and timing share: both implementations as tables of calls, a store's sizes and buffers, and a small generator of pseudo-random numbers.
#![allow(dead_code)]

pub mod images;
pub mod plain;
pub mod states;
#[cfg(all(target_arch = "x86_64", target_os = "linux"))]
pub mod stores;
pub mod trailers;

use std::mem::take;
use vandzulge::raw::{self, ANSWER_WORDS};
use vandzulge::{GREATEST_LAG, RECORD_WORDS};

/// Data words, lanes and log slots a lane, in range or not.
#[derive(Debug, Clone, Copy, PartialEq, Eq)]
pub struct Sizes {
    pub words: usize,
    pub lanes: usize,
    pub slots: usize,
}

/// The words of an image before its trailer, which are all of one of the former length.
pub fn former_words(sizes: Sizes) -> usize {
    vandzulge::former_words(sizes.words, sizes.lanes, sizes.slots)
}

type Step = fn(usize, usize, usize, &mut [u64], &mut [u64], &mut [u8], &mut [u64], &mut [u64], usize) -> u64;
type TxnStep = fn(usize, usize, usize, &mut [u64], &mut [u64], &mut [u8], &mut [u64], &mut [u64], usize, &[u64]) -> u64;
type Recovery = fn(usize, usize, usize, u64, &mut [u64], &mut [u64], &mut [u8], &mut [u64], &mut [u64], usize) -> u64;
type UnsizedRecovery = fn(u64, &mut [u64], &mut [u64], &mut [u8], &mut [u64], &mut [u64], usize) -> u64;

/// One implementation of the eleven calls.
pub struct Calls {
    pub name: &'static str,
    pub format: fn(usize, usize, usize, u64, &[u64], &mut [u64], &mut [u64], &mut [u8], &mut [u64]) -> u64,
    pub write_back: fn(usize, usize, usize, &[u64], &mut [u64], &[u8], usize) -> u64,
    pub drain: fn(usize, usize, usize, &[u64], &mut [u64], &mut [u8], &mut [u64], usize) -> u64,
    pub log: TxnStep,
    pub redo: Step,
    pub validate: TxnStep,
    pub mark: Step,
    pub lock: TxnStep,
    /// Continue
    pub proceed: Step,
    pub recover: Recovery,
    pub recover_read: UnsizedRecovery,
}

pub const PLAIN: Calls = Calls {
    name: "plain",
    format: plain::format,
    write_back: plain::write_back,
    drain: plain::drain,
    log: plain::log,
    redo: plain::redo,
    validate: plain::validate,
    mark: plain::mark,
    lock: plain::lock,
    proceed: plain::proceed,
    recover: plain::recover,
    recover_read: plain::recover_read,
};

pub const LIBRARY: Calls = Calls {
    name: "library",
    format: raw::format,
    write_back: raw::write_back,
    drain: raw::drain,
    log: raw::log,
    redo: raw::redo,
    validate: raw::validate,
    mark: raw::mark,
    lock: raw::lock,
    proceed: raw::proceed,
    recover: raw::recover,
    recover_read: raw::recover_read,
};

/// One call with its own arguments.
#[derive(Debug, Clone)]
pub enum Call {
    Format(Vec<u64>),
    WriteBack(usize),
    Drain(usize),
    Log(usize, Vec<u64>),
    Redo(usize),
    Validate(usize, Vec<u64>),
    Mark(usize),
    Lock(usize, Vec<u64>),
    Continue(usize),
    Recover(usize),
    RecoverRead(usize),
}

impl Call {
    /// The lane that the call drains, if it does.
    pub fn drains(&self) -> Option<usize> {
        match self {
            Call::Drain(lane)
            | Call::Log(lane, _)
            | Call::Redo(lane)
            | Call::Validate(lane, _)
            | Call::Mark(lane)
            | Call::Lock(lane, _)
            | Call::Continue(lane) => Some(*lane),
            Call::Format(_) | Call::WriteBack(_) | Call::Recover(_) | Call::RecoverRead(_) => None,
        }
    }
}

/// What calls are lent. Lengths need not fit the sizes.
#[derive(Debug, Clone, PartialEq, Eq)]
pub struct World {
    pub words: usize,
    pub lanes: usize,
    pub slots: usize,
    /// the lag limit that Format and the recoveries are given
    pub max_lag: u64,
    pub cache: Vec<u64>,
    pub nvm: Vec<u64>,
    pub flags: Vec<u8>,
    pub record: Vec<u64>,
    pub answer: Vec<u64>,
}

impl World {
    /// Buffers of the image's length, all 0, where a trailer would stand too; the greatest lag limit.
    pub fn new(words: usize, lanes: usize, slots: usize) -> World {
        World::of_length(words, lanes, slots, 1 + words + 2 * lanes * slots + 4)
    }

    /// The same of the former length.
    pub fn former(words: usize, lanes: usize, slots: usize) -> World {
        World::of_length(words, lanes, slots, 1 + words + 2 * lanes * slots)
    }

    pub fn of_length(words: usize, lanes: usize, slots: usize, length: usize) -> World {
        World {
            words,
            lanes,
            slots,
            max_lag: GREATEST_LAG,
            cache: vec![0; length],
            nvm: vec![0; length],
            flags: vec![0; length],
            record: vec![0; RECORD_WORDS],
            answer: vec![0; ANSWER_WORDS],
        }
    }

    /// Whether the non-volatile memory has the former length of these sizes.
    pub fn is_former(&self) -> bool {
        let logs = self.lanes.saturating_mul(self.slots).saturating_mul(2);
        self.nvm.len() == logs.saturating_add(self.words).saturating_add(1)
    }

    /// The three buffers made longer by zeros, or shorter.
    pub fn resize(&mut self, length: usize) {
        self.cache.resize(length, 0);
        self.nvm.resize(length, 0);
        self.flags.resize(length, 0);
    }

    /// Makes the call and returns its number.
    pub fn call(&mut self, calls: &Calls, call: &Call) -> u64 {
        let (mut cache, mut nvm) = (take(&mut self.cache), take(&mut self.nvm));
        let number = self.call_on(calls, call, &mut cache, &mut nvm);
        (self.cache, self.nvm) = (cache, nvm);
        number
    }

    /// The same on a cache and a non-volatile memory that stand elsewhere.
    pub fn call_on(&mut self, calls: &Calls, call: &Call, cache: &mut [u64], nvm: &mut [u64]) -> u64 {
        let World { words, lanes, slots, max_lag, flags, record, answer, .. } = self;
        let (w, t, n, lag) = (*words, *lanes, *slots, *max_lag);
        match call {
            Call::Format(start) => (calls.format)(w, t, n, lag, start, cache, nvm, flags, record),
            Call::WriteBack(word) => (calls.write_back)(w, t, n, cache, nvm, flags, *word),
            Call::Drain(lane) => (calls.drain)(w, t, n, cache, nvm, flags, record, *lane),
            Call::Log(lane, txn) => (calls.log)(w, t, n, cache, nvm, flags, record, answer, *lane, txn),
            Call::Redo(lane) => (calls.redo)(w, t, n, cache, nvm, flags, record, answer, *lane),
            Call::Validate(lane, txn) => (calls.validate)(w, t, n, cache, nvm, flags, record, answer, *lane, txn),
            Call::Mark(lane) => (calls.mark)(w, t, n, cache, nvm, flags, record, answer, *lane),
            Call::Lock(lane, txn) => (calls.lock)(w, t, n, cache, nvm, flags, record, answer, *lane, txn),
            Call::Continue(lane) => (calls.proceed)(w, t, n, cache, nvm, flags, record, answer, *lane),
            Call::Recover(limit) => (calls.recover)(w, t, n, lag, cache, nvm, flags, record, answer, *limit),
            Call::RecoverRead(limit) => (calls.recover_read)(lag, cache, nvm, flags, record, answer, *limit),
        }
    }
}

/// Pseudo-random numbers (xorshift with a multiplication), the same in every run.
pub struct Random(u64);

impl Random {
    pub fn new(seed: u64) -> Random {
        Random(seed.wrapping_mul(0x9e37_79b9_7f4a_7c15) | 1)
    }

    pub fn word(&mut self) -> u64 {
        self.0 ^= self.0 >> 12;
        self.0 ^= self.0 << 25;
        self.0 ^= self.0 >> 27;
        self.0.wrapping_mul(0x2545_f491_4f6c_dd1d)
    }

    /// A number below the given one.
    pub fn below(&mut self, limit: u64) -> u64 {
        (self.word() >> 11) % limit
    }

    pub fn index(&mut self, limit: usize) -> usize {
        self.below(limit as u64) as usize
    }

    /// True once in so many times.
    pub fn one_in(&mut self, times: u64) -> bool {
        self.below(times) == 0
    }

    pub fn pick<T: Copy>(&mut self, from: &[T]) -> T {
        from[self.index(from.len())]
    }
}
