//! The instructions of a transaction, and their words.

/// The most instructions of a transaction that Log takes.
pub const MAX_INSTRUCTIONS: usize = 16;
/// The most instructions of a long transaction.
pub const MAX_LONG_INSTRUCTIONS: usize = 64;

/// One instruction of a transaction, on data words, which count from 0. They run in order, each on what those before it left.
///
/// ```
/// # use vandzulge::{Buffers, Refusal, Sizes, Store, GREATEST_LAG, RECORD_WORDS};
/// use vandzulge::Instruction::{Add, Copy, Set, SkipIfZero};
///
/// # fn main() -> Result<(), Refusal> {
/// # let sizes = Sizes::new(4, 1, 34)?;
/// # let (cache, nvm, flags) = (&mut vec![0; sizes.image_words()], &mut vec![0; sizes.image_words()], &mut vec![0; sizes.image_words()]);
/// # let mut buffers = Buffers { cache, nvm, flags, record: &mut [0; RECORD_WORDS] };
/// let mut store = Store::format(&mut buffers, sizes, GREATEST_LAG, &[5, 0, 0, 0])?;
/// // moves one from word 0 to word 1, unless word 0 is 0, and notes in word 2 what word 1 was before
/// let move_one =
///     [SkipIfZero { word: 0, count: 3 }, Copy { to: 2, from: 1 }, Add { to: 0, from: 0, value: u64::MAX }, Add { to: 1, from: 1, value: 1 }];
/// for _ in 0..2 {
///     store.commit(0, &move_one)?;
/// }
/// assert_eq!(store.words(), [3, 2, 1, 0]);
///
/// store.commit(0, &[Set { to: 0, value: 0 }])?;
/// assert_eq!(store.commit(0, &move_one)?, None);
/// assert_eq!(store.words(), [0, 2, 1, 0]);
/// # Ok(())
/// # }
/// ```
#[derive(Debug, Clone, Copy, PartialEq, Eq)]
pub enum Instruction {
    /// Word `to` becomes `value`.
    Set { to: usize, value: u64 },
    /// Word `to` becomes what word `from` is.
    Copy { to: usize, from: usize },
    /// Word `to` becomes word `from` plus `value`, modulo 2^64.
    Add { to: usize, from: usize, value: u64 },
    /// The next `count` instructions, 1 to 15, are passed over where the word is 0.
    SkipIfZero { word: usize, count: u64 },
}

impl Instruction {
    /// The four words that the calls of [`raw`](crate::raw) take.
    pub const fn to_words(self) -> [u64; 4] {
        match self {
            Instruction::Set { to, value } => [1, to as u64, 0, value],
            Instruction::Copy { to, from } => [2, to as u64, from as u64, 0],
            Instruction::Add { to, from, value } => [3, to as u64, from as u64, value],
            Instruction::SkipIfZero { word, count } => [5, 0, word as u64, count],
        }
    }
}

/// The words of a transaction, of the first `MOST` instructions where it is longer.
pub(crate) struct Encoded<const MOST: usize> {
    words: [[u64; 4]; MOST],
    count: usize,
}

impl<const MOST: usize> Encoded<MOST> {
    pub(crate) fn new(txn: &[Instruction]) -> Encoded<MOST> {
        let mut words = [[0; 4]; MOST];
        for (to, instruction) in words.iter_mut().zip(txn) {
            *to = instruction.to_words();
        }
        Encoded { words, count: txn.len().min(MOST) }
    }

    pub(crate) fn words(&self) -> &[u64] {
        self.words[..self.count].as_flattened()
    }
}
