//! Images for recovery, the worst and the best, for tests and timing: words of non-volatile memory with given logs.

use super::{former_words, Sizes};

/// What the logs of an image hold. All slots have wrap bit 1.
#[derive(Debug, Clone, Copy, PartialEq, Eq)]
pub enum Logs {
    /// every slot 0, 0
    Empty,
    /// every slot a complete mark, timestamps in no order: no lane gives a boundary, and nothing is undone
    Marked,
    /// every slot a complete mark, but the first lane ends with a sequence of one entry, all with the same timestamp: it is the boundary, and all are undone
    EqualMarks,
    /// the same with timestamps in no order; those of every lane but the first are all above the boundary
    MixedMarks,
    /// complete sequences of one entry, timestamps in no order; those of every lane but the first are all above the boundary
    Singles,
    /// complete sequences of 16 entries, all with the same timestamp: all are undone
    EqualSequences,
    /// complete sequences of 16 entries, timestamps in no order; those of every lane but the first are all above the boundary
    MixedSequences,
    /// every slot a whole timestamp over one entry that is not there: none is complete
    Incomplete,
    /// every slot torn
    Torn,
}

pub const ALL: [Logs; 9] =
    [Logs::Empty, Logs::Marked, Logs::EqualMarks, Logs::MixedMarks, Logs::Singles, Logs::EqualSequences, Logs::MixedSequences, Logs::Incomplete, Logs::Torn];

/// The image with base 0 and data words 1, 2, 3 and so on.
pub fn image(sizes: Sizes, logs: Logs) -> Vec<u64> {
    let mut image = former_image(sizes, logs);
    image.extend(trailer(sizes));
    image
}

/// The last four words of an image of these sizes.
pub fn trailer(sizes: Sizes) -> [u64; 4] {
    [sizes.words, sizes.lanes, sizes.slots, former_words(sizes)].map(|number| number as u64)
}

/// The same image in the former length, without the trailer.
pub fn former_image(sizes: Sizes, logs: Logs) -> Vec<u64> {
    let mut image = vec![0; former_words(sizes)];
    for (word, data) in image[1..=sizes.words].iter_mut().enumerate() {
        *data = word as u64 + 1;
    }
    let log_words = &mut image[1 + sizes.words..];
    for (number, slot) in log_words.chunks_exact_mut(2).enumerate() {
        let [address, value] = slot_words(sizes, logs, number / sizes.slots, number % sizes.slots);
        slot[0] = address;
        slot[1] = value;
    }
    image
}

fn slot_words(sizes: Sizes, logs: Logs, lane: usize, slot: usize) -> [u64; 2] {
    match logs {
        Logs::Empty => [0, 0],
        Logs::Marked => closing(0, mixed(sizes, lane, slot)),
        Logs::EqualMarks => among_marks(sizes, lane, slot, 2),
        Logs::MixedMarks => among_marks(sizes, lane, slot, mixed(sizes, lane, slot)),
        Logs::Singles => in_sequence(sizes, 1, slot, mixed(sizes, lane, slot)),
        Logs::EqualSequences => in_sequence(sizes, 16, slot, 2),
        Logs::MixedSequences => in_sequence(sizes, 16, slot, mixed(sizes, lane, slot)),
        Logs::Incomplete => closing(1, mixed(sizes, lane, slot)),
        Logs::Torn => [8 * (slot as u64 % sizes.words as u64 + 1) + 1, 2 * slot as u64],
    }
}

/// A slot of logs full of marks, but for the last two of lane 0: an entry and the timestamp that closes it.
fn among_marks(sizes: Sizes, lane: usize, slot: usize, stamp: u64) -> [u64; 2] {
    match (lane, sizes.slots - slot) {
        (0, 2) => entry(sizes, slot),
        (0, 1) => closing(1, stamp),
        _ => closing(0, stamp),
    }
}

/// A slot of a log full of sequences of so many entries and the timestamps that close them.
fn in_sequence(sizes: Sizes, entries: usize, slot: usize, stamp: u64) -> [u64; 2] {
    let length = entries + 1;
    if slot / length == sizes.slots / length {
        // behind the last whole sequence
        [0, 0]
    } else if slot % length == entries {
        closing(entries as u64, stamp)
    } else {
        entry(sizes, slot)
    }
}

fn entry(sizes: Sizes, slot: usize) -> [u64; 2] {
    [8 * (slot as u64 % sizes.words as u64 + 1) + 1, 2 * slot as u64 + 1]
}

fn closing(count: u64, stamp: u64) -> [u64; 2] {
    [8 * (4096 + count) + 1, stamp + 1]
}

/// Distinct timestamps in no order: lane 0 has the least ones, and its last slot the greatest of these.
fn mixed(sizes: Sizes, lane: usize, slot: usize) -> u64 {
    let number = if lane == 0 {
        // 101 is prime and divides no number of slots in range but 101 and 202
        let step = if sizes.slots % 101 == 0 { 103 } else { 101 };
        sizes.slots - 1 - (slot + 1) * step % sizes.slots
    } else {
        let others = (sizes.lanes - 1) * sizes.slots;
        let step = if others % 1_009 == 0 { 1_013 } else { 1_009 };
        sizes.slots + ((lane - 1) * sizes.slots + slot) * step % others
    };
    2 * (number as u64 + 1)
}
