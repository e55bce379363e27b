//! The library's calls on words, as in C, for code that must hand over anything: one function a call, on slices that cannot be null and, by Rust's rules, do not overlap where one
//! is written. Each returns 0 or the number of the refusal, as in `include/vandzulge.h`; nothing is checked here, the library checks it. [`Store`](crate::Store) is made of them.

/// Words of an answer.
pub const ANSWER_WORDS: usize = 4;
/// Words of each lane in the record, from word 2 on: phase (0 idle), first slot, count, timestamp, next slot, wrap bit, floor (0 none), floor's value; then 16 pairs.
pub const LANE_WORDS: usize = 40;
/// The record's word that has the lag limit.
pub const LAG_WORD: usize = 322;
/// The first of the record's words for the lock: whether it is held, its lane, timestamp, count of writes, how many of them are logged, how many are written; then 64 pairs.
pub const LOCK_WORD: usize = 323;
/// Words of the longest transaction: 16 instructions of four.
pub const MAX_TXN_WORDS: usize = 4 * crate::MAX_INSTRUCTIONS;
/// Words of the longest transaction under the lock: 64 instructions of four.
pub const MAX_LONG_TXN_WORDS: usize = 4 * crate::MAX_LONG_INSTRUCTIONS;
/// Words of the trailer, the last ones of an image: W, T, N, and how many words stand before these four.
pub const TRAILER_WORDS: usize = 4;

mod ffi {
    extern "C" {
        pub fn vandzulge_format(
            words: usize,
            lanes: usize,
            slots: usize,
            max_lag: u64,
            start: *const u64,
            start_len: usize,
            cache: *mut u64,
            cache_len: usize,
            nvm: *mut u64,
            nvm_len: usize,
            flags: *mut u8,
            flags_len: usize,
            record: *mut u64,
            record_len: usize,
        ) -> u64;
        pub fn vandzulge_write_back(
            words: usize,
            lanes: usize,
            slots: usize,
            cache: *const u64,
            cache_len: usize,
            nvm: *mut u64,
            nvm_len: usize,
            flags: *const u8,
            flags_len: usize,
            word: usize,
        ) -> u64;
        pub fn vandzulge_drain(
            words: usize,
            lanes: usize,
            slots: usize,
            cache: *const u64,
            cache_len: usize,
            nvm: *mut u64,
            nvm_len: usize,
            flags: *mut u8,
            flags_len: usize,
            record: *mut u64,
            record_len: usize,
            lane: usize,
        ) -> u64;
        pub fn vandzulge_log(
            words: usize,
            lanes: usize,
            slots: usize,
            cache: *mut u64,
            cache_len: usize,
            nvm: *mut u64,
            nvm_len: usize,
            flags: *mut u8,
            flags_len: usize,
            record: *mut u64,
            record_len: usize,
            answer: *mut u64,
            answer_len: usize,
            lane: usize,
            txn: *const u64,
            txn_len: usize,
        ) -> u64;
        pub fn vandzulge_redo(
            words: usize,
            lanes: usize,
            slots: usize,
            cache: *mut u64,
            cache_len: usize,
            nvm: *mut u64,
            nvm_len: usize,
            flags: *mut u8,
            flags_len: usize,
            record: *mut u64,
            record_len: usize,
            answer: *mut u64,
            answer_len: usize,
            lane: usize,
        ) -> u64;
        pub fn vandzulge_validate(
            words: usize,
            lanes: usize,
            slots: usize,
            cache: *mut u64,
            cache_len: usize,
            nvm: *mut u64,
            nvm_len: usize,
            flags: *mut u8,
            flags_len: usize,
            record: *mut u64,
            record_len: usize,
            answer: *mut u64,
            answer_len: usize,
            lane: usize,
            txn: *const u64,
            txn_len: usize,
        ) -> u64;
        pub fn vandzulge_mark(
            words: usize,
            lanes: usize,
            slots: usize,
            cache: *mut u64,
            cache_len: usize,
            nvm: *mut u64,
            nvm_len: usize,
            flags: *mut u8,
            flags_len: usize,
            record: *mut u64,
            record_len: usize,
            answer: *mut u64,
            answer_len: usize,
            lane: usize,
        ) -> u64;
        pub fn vandzulge_lock(
            words: usize,
            lanes: usize,
            slots: usize,
            cache: *mut u64,
            cache_len: usize,
            nvm: *mut u64,
            nvm_len: usize,
            flags: *mut u8,
            flags_len: usize,
            record: *mut u64,
            record_len: usize,
            answer: *mut u64,
            answer_len: usize,
            lane: usize,
            txn: *const u64,
            txn_len: usize,
        ) -> u64;
        pub fn vandzulge_continue(
            words: usize,
            lanes: usize,
            slots: usize,
            cache: *mut u64,
            cache_len: usize,
            nvm: *mut u64,
            nvm_len: usize,
            flags: *mut u8,
            flags_len: usize,
            record: *mut u64,
            record_len: usize,
            answer: *mut u64,
            answer_len: usize,
            lane: usize,
        ) -> u64;
        pub fn vandzulge_recover(
            words: usize,
            lanes: usize,
            slots: usize,
            max_lag: u64,
            cache: *mut u64,
            cache_len: usize,
            nvm: *mut u64,
            nvm_len: usize,
            flags: *mut u8,
            flags_len: usize,
            record: *mut u64,
            record_len: usize,
            answer: *mut u64,
            answer_len: usize,
            limit: usize,
        ) -> u64;
        pub fn vandzulge_recover_read(
            max_lag: u64,
            cache: *mut u64,
            cache_len: usize,
            nvm: *mut u64,
            nvm_len: usize,
            flags: *mut u8,
            flags_len: usize,
            record: *mut u64,
            record_len: usize,
            answer: *mut u64,
            answer_len: usize,
            limit: usize,
        ) -> u64;
    }
}

/// Format: every word as in a new store with the given start words; `record` becomes its record, with this lag limit. Buffers of the new length only.
pub fn format(
    words: usize,
    lanes: usize,
    slots: usize,
    max_lag: u64,
    start: &[u64],
    cache: &mut [u64],
    nvm: &mut [u64],
    flags: &mut [u8],
    record: &mut [u64],
) -> u64 {
    // SAFETY: each pointer and length is that of a slice, and no slice that is written overlaps another.
    unsafe {
        ffi::vandzulge_format(
            words,
            lanes,
            slots,
            max_lag,
            start.as_ptr(),
            start.len(),
            cache.as_mut_ptr(),
            cache.len(),
            nvm.as_mut_ptr(),
            nvm.len(),
            flags.as_mut_ptr(),
            flags.len(),
            record.as_mut_ptr(),
            record.len(),
        )
    }
}

/// Write-back of one word of the image, of its trailer too.
pub fn write_back(words: usize, lanes: usize, slots: usize, cache: &[u64], nvm: &mut [u64], flags: &[u8], word: usize) -> u64 {
    // SAFETY: each pointer and length is that of a slice, and no slice that is written overlaps another.
    unsafe { ffi::vandzulge_write_back(words, lanes, slots, cache.as_ptr(), cache.len(), nvm.as_mut_ptr(), nvm.len(), flags.as_ptr(), flags.len(), word) }
}

/// Drain of a lane, which moves or ends its floor.
pub fn drain(words: usize, lanes: usize, slots: usize, cache: &[u64], nvm: &mut [u64], flags: &mut [u8], record: &mut [u64], lane: usize) -> u64 {
    // SAFETY: each pointer and length is that of a slice, and no slice that is written overlaps another.
    unsafe {
        ffi::vandzulge_drain(
            words,
            lanes,
            slots,
            cache.as_ptr(),
            cache.len(),
            nvm.as_mut_ptr(),
            nvm.len(),
            flags.as_mut_ptr(),
            flags.len(),
            record.as_mut_ptr(),
            record.len(),
            lane,
        )
    }
}

/// Log of a transaction. Answer: count, timestamp, 0, 0; all 0 where it writes nothing; 0, timestamp, 0, 0 of the empty one, which settles the lane.
pub fn log(
    words: usize,
    lanes: usize,
    slots: usize,
    cache: &mut [u64],
    nvm: &mut [u64],
    flags: &mut [u8],
    record: &mut [u64],
    answer: &mut [u64],
    lane: usize,
    txn: &[u64],
) -> u64 {
    // SAFETY: each pointer and length is that of a slice, and no slice that is written overlaps another.
    unsafe {
        ffi::vandzulge_log(
            words,
            lanes,
            slots,
            cache.as_mut_ptr(),
            cache.len(),
            nvm.as_mut_ptr(),
            nvm.len(),
            flags.as_mut_ptr(),
            flags.len(),
            record.as_mut_ptr(),
            record.len(),
            answer.as_mut_ptr(),
            answer.len(),
            lane,
            txn.as_ptr(),
            txn.len(),
        )
    }
}

/// Redo. Answer: 1, timestamp, 0, 0; all 0 where it is stale.
pub fn redo(
    words: usize,
    lanes: usize,
    slots: usize,
    cache: &mut [u64],
    nvm: &mut [u64],
    flags: &mut [u8],
    record: &mut [u64],
    answer: &mut [u64],
    lane: usize,
) -> u64 {
    // SAFETY: each pointer and length is that of a slice, and no slice that is written overlaps another.
    unsafe {
        ffi::vandzulge_redo(
            words,
            lanes,
            slots,
            cache.as_mut_ptr(),
            cache.len(),
            nvm.as_mut_ptr(),
            nvm.len(),
            flags.as_mut_ptr(),
            flags.len(),
            record.as_mut_ptr(),
            record.len(),
            answer.as_mut_ptr(),
            answer.len(),
            lane,
        )
    }
}

/// Validate with a transaction. Answer: 1, timestamp, 0, 0; all 0 where it changed.
pub fn validate(
    words: usize,
    lanes: usize,
    slots: usize,
    cache: &mut [u64],
    nvm: &mut [u64],
    flags: &mut [u8],
    record: &mut [u64],
    answer: &mut [u64],
    lane: usize,
    txn: &[u64],
) -> u64 {
    // SAFETY: each pointer and length is that of a slice, and no slice that is written overlaps another.
    unsafe {
        ffi::vandzulge_validate(
            words,
            lanes,
            slots,
            cache.as_mut_ptr(),
            cache.len(),
            nvm.as_mut_ptr(),
            nvm.len(),
            flags.as_mut_ptr(),
            flags.len(),
            record.as_mut_ptr(),
            record.len(),
            answer.as_mut_ptr(),
            answer.len(),
            lane,
            txn.as_ptr(),
            txn.len(),
        )
    }
}

/// Mark: the lane's next drain ends its floor. Answer: 1 where a logged transaction was dropped, else 0; timestamp; 0, 0.
pub fn mark(
    words: usize,
    lanes: usize,
    slots: usize,
    cache: &mut [u64],
    nvm: &mut [u64],
    flags: &mut [u8],
    record: &mut [u64],
    answer: &mut [u64],
    lane: usize,
) -> u64 {
    // SAFETY: each pointer and length is that of a slice, and no slice that is written overlaps another.
    unsafe {
        ffi::vandzulge_mark(
            words,
            lanes,
            slots,
            cache.as_mut_ptr(),
            cache.len(),
            nvm.as_mut_ptr(),
            nvm.len(),
            flags.as_mut_ptr(),
            flags.len(),
            record.as_mut_ptr(),
            record.len(),
            answer.as_mut_ptr(),
            answer.len(),
            lane,
        )
    }
}

/// Lock for a transaction of up to 64 instructions. Answer: writes not yet made, timestamp, 0, 0; all 0 where it writes nothing, and no lock is taken.
pub fn lock(
    words: usize,
    lanes: usize,
    slots: usize,
    cache: &mut [u64],
    nvm: &mut [u64],
    flags: &mut [u8],
    record: &mut [u64],
    answer: &mut [u64],
    lane: usize,
    txn: &[u64],
) -> u64 {
    // SAFETY: each pointer and length is that of a slice, and no slice that is written overlaps another.
    unsafe {
        ffi::vandzulge_lock(
            words,
            lanes,
            slots,
            cache.as_mut_ptr(),
            cache.len(),
            nvm.as_mut_ptr(),
            nvm.len(),
            flags.as_mut_ptr(),
            flags.len(),
            record.as_mut_ptr(),
            record.len(),
            answer.as_mut_ptr(),
            answer.len(),
            lane,
            txn.as_ptr(),
            txn.len(),
        )
    }
}

/// Continue (a name that Rust has taken): the next step of the long transaction. Answer: writes not yet made, 0 where it is committed and the lock free; timestamp; 0, 0.
pub fn proceed(
    words: usize,
    lanes: usize,
    slots: usize,
    cache: &mut [u64],
    nvm: &mut [u64],
    flags: &mut [u8],
    record: &mut [u64],
    answer: &mut [u64],
    lane: usize,
) -> u64 {
    // SAFETY: each pointer and length is that of a slice, and no slice that is written overlaps another.
    unsafe {
        ffi::vandzulge_continue(
            words,
            lanes,
            slots,
            cache.as_mut_ptr(),
            cache.len(),
            nvm.as_mut_ptr(),
            nvm.len(),
            flags.as_mut_ptr(),
            flags.len(),
            record.as_mut_ptr(),
            record.len(),
            answer.as_mut_ptr(),
            answer.len(),
            lane,
        )
    }
}

/// Recovery of at most `limit` stores with the sizes given, of an image of the former length. Where it finished, `record` is that of a start with this lag limit.
/// Answer: all 0 where it was cut; 1, 0, 0, torn where no lane gave a boundary; 2, boundary, undone, torn.
pub fn recover(
    words: usize,
    lanes: usize,
    slots: usize,
    max_lag: u64,
    cache: &mut [u64],
    nvm: &mut [u64],
    flags: &mut [u8],
    record: &mut [u64],
    answer: &mut [u64],
    limit: usize,
) -> u64 {
    // SAFETY: each pointer and length is that of a slice, and no slice that is written overlaps another.
    unsafe {
        ffi::vandzulge_recover(
            words,
            lanes,
            slots,
            max_lag,
            cache.as_mut_ptr(),
            cache.len(),
            nvm.as_mut_ptr(),
            nvm.len(),
            flags.as_mut_ptr(),
            flags.len(),
            record.as_mut_ptr(),
            record.len(),
            answer.as_mut_ptr(),
            answer.len(),
            limit,
        )
    }
}

/// Recovery of at most `limit` stores without sizes, which it reads from the trailer of `nvm`. Answer as that of [`recover`].
pub fn recover_read(max_lag: u64, cache: &mut [u64], nvm: &mut [u64], flags: &mut [u8], record: &mut [u64], answer: &mut [u64], limit: usize) -> u64 {
    // SAFETY: each pointer and length is that of a slice, and no slice that is written overlaps another.
    unsafe {
        ffi::vandzulge_recover_read(
            max_lag,
            cache.as_mut_ptr(),
            cache.len(),
            nvm.as_mut_ptr(),
            nvm.len(),
            flags.as_mut_ptr(),
            flags.len(),
            record.as_mut_ptr(),
            record.len(),
            answer.as_mut_ptr(),
            answer.len(),
            limit,
        )
    }
}
