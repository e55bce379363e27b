//! Last four words for an image of a given length: those that agree with it, and those that do not.

use super::{Random, Sizes};

fn in_range([words, lanes, slots]: [u64; 3]) -> bool {
    (1..=1024).contains(&words) && (1..=8).contains(&lanes) && (34..=256).contains(&slots)
}

/// A trailer with these lanes and slots whose numbers agree with a length, if need be by wrapping at 64 bits.
fn with_logs(length: usize, lanes: u64, slots: u64) -> [u64; 4] {
    let before = length as u64 - 4;
    let words = before.wrapping_sub(1).wrapping_sub(lanes.wrapping_mul(slots).wrapping_mul(2));
    [words, lanes, slots, before]
}

/// A trailer of any sizes in range that agrees with the length, if some are found.
pub fn fitting(random: &mut Random, length: usize) -> Option<[u64; 4]> {
    (0..40).map(|_| with_logs(length, 1 + random.below(8), 34 + random.below(223))).find(|trailer| in_range([trailer[0], trailer[1], trailer[2]]))
}

/// Trailers that an image of these sizes and of the new length must not have: a word off by one, or by a power of two; sizes out of range whose sum agrees with the length, also
/// where only the low bits of it do; a fourth word that counts something else.
pub fn bad(sizes: Sizes) -> Vec<[u64; 4]> {
    let (lanes, slots) = (sizes.lanes as u64, sizes.slots as u64);
    let length = 1 + sizes.words + 2 * sizes.lanes * sizes.slots + 4;
    let right = with_logs(length, lanes, slots);
    let mut bad = Vec::new();
    for word in 0..4 {
        for off in [1, u64::MAX, 1 << 16, 1 << 32, 1 << 63, right[word].wrapping_neg()] {
            let mut trailer = right;
            trailer[word] = trailer[word].wrapping_add(off);
            bad.push(trailer);
        }
    }
    for (lanes, slots) in [
        (0, slots),
        (9, slots),
        (lanes, 0),
        (lanes, 33),
        (lanes, 257),
        (lanes + (1 << 63), slots),
        (lanes, slots + (1 << 63)),
        (1 << 32, 1 << 31),
        (lanes + (1 << 32), slots),
        (1 << 63, 34),
        (1, 1 << 63),
        (u64::MAX, slots),
        (lanes, u64::MAX),
        (8, 256),
        (1, 34),
        (slots, lanes),
    ] {
        let trailer = with_logs(length, lanes, slots);
        if !in_range([trailer[0], lanes, slots]) {
            bad.push(trailer);
        }
    }
    // one data word too few or too many, where lanes and slots leave room for it
    for (lanes, slots) in (1..=8).flat_map(|lanes| (34..=256).map(move |slots| (lanes, slots))) {
        let trailer = with_logs(length, lanes, slots);
        if [0, 1025].contains(&trailer[0]) {
            bad.push(trailer);
        }
    }
    for count in [length as u64, length as u64 - 5, right[0]] {
        bad.push([right[0], right[1], right[2], count]);
    }
    bad.push([right[1], right[0], right[2], right[3]]);
    bad.push([right[3], right[2], right[1], right[0]]);
    bad.retain(|&trailer| trailer != right);
    bad
}
