//! The sizes of a store, and the lengths of buffers that follow from them.

use crate::Refusal;

pub const MAX_WORDS: usize = 1024;
pub const MAX_LANES: usize = 8;
pub const MIN_SLOTS: usize = 34;
pub const MAX_SLOTS: usize = 256;
/// Words of the greatest image.
pub const MAX_IMAGE_WORDS: usize = image_words(MAX_WORDS, MAX_LANES, MAX_SLOTS);
/// Words of the greatest image of the former length.
pub const MAX_FORMER_WORDS: usize = former_words(MAX_WORDS, MAX_LANES, MAX_SLOTS);

/// The length of the cached image, of the non-volatile memory and of the flags, for sizes in range.
pub const fn image_words(words: usize, lanes: usize, slots: usize) -> usize {
    former_words(words, lanes, slots) + crate::raw::TRAILER_WORDS
}

/// The same for an image of the former length, which has no trailer.
pub const fn former_words(words: usize, lanes: usize, slots: usize) -> usize {
    1 + words + 2 * lanes * slots
}

/// Data words (1 to 1,024), lanes (1 to 8) and log slots a lane (34 to 256), each in its range.
///
/// ```
/// use vandzulge::{image_words, Refusal, Sizes, RECORD_WORDS};
///
/// assert_eq!(Sizes::new(16, 1, 33), Err(Refusal::Size));
///
/// // as constants, with the lengths of the buffers: a size out of range does not compile
/// const SIZES: Sizes = match Sizes::new(16, 1, 64) {
///     Ok(sizes) => sizes,
///     Err(_) => panic!("sizes out of range"),
/// };
/// static CACHE: [u64; SIZES.image_words()] = [0; SIZES.image_words()];
/// static RECORD: [u64; RECORD_WORDS] = [0; RECORD_WORDS];
/// assert_eq!((CACHE.len(), image_words(16, 1, 64), RECORD.len()), (149, 149, 457));
/// ```
#[derive(Debug, Clone, Copy, PartialEq, Eq)]
pub struct Sizes {
    words: usize,
    lanes: usize,
    slots: usize,
}

impl Sizes {
    /// Refused with [`Refusal::Size`] where one is out of its range.
    pub const fn new(words: usize, lanes: usize, slots: usize) -> Result<Sizes, Refusal> {
        if words == 0 || words > MAX_WORDS || lanes == 0 || lanes > MAX_LANES || slots < MIN_SLOTS || slots > MAX_SLOTS {
            return Err(Refusal::Size);
        }
        Ok(Sizes { words, lanes, slots })
    }

    /// How many data words there are.
    pub const fn words(self) -> usize {
        self.words
    }

    pub const fn lanes(self) -> usize {
        self.lanes
    }

    /// Log slots a lane: one for each write of a transaction, and one for its timestamp.
    pub const fn slots(self) -> usize {
        self.slots
    }

    /// The length of each of the three buffers.
    pub const fn image_words(self) -> usize {
        image_words(self.words, self.lanes, self.slots)
    }

    /// Their length where the image is of the former length.
    pub const fn former_words(self) -> usize {
        former_words(self.words, self.lanes, self.slots)
    }
}
