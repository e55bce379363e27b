//! Why a call was refused.

use core::fmt;

/// Why a call was refused. Nothing was touched.
///
/// ```
/// use vandzulge::{Refusal, Sizes};
///
/// let refusal: Box<dyn std::error::Error> = Sizes::new(16, 9, 64).unwrap_err().into();
/// assert_eq!(refusal.to_string(), "refused 1: a size out of range, or a buffer of a length that does not fit");
/// assert_eq!(Refusal::Overwrite.number(), 9);
/// ```
#[derive(Debug, Clone, Copy, PartialEq, Eq)]
#[non_exhaustive]
pub enum Refusal {
    /// 1: a size outside its range, or a slice of a length that the call does not take
    Size,
    /// 2: a record field outside its range
    Record,
    /// 3: no such lane
    Lane,
    /// 4: no such word in the image
    Word,
    /// 5: no well-formed transaction: too many instructions, a word that is no data word, a skip of none, of more than 15 or past the end; for Validate and Lock also the empty one.
    /// By [`raw`](crate::raw) also words that are no instruction, such as the withdrawn POKE (code 4), wherever it stands
    Txn,
    /// 6: Log, also one that settles, or Lock on a lane that holds a transaction
    Logged,
    /// 7: Redo or Validate on an idle lane, or Continue while the lock is free
    Idle,
    /// 8: the clock is spent
    Spent,
    /// 9: the append would overwrite a sequence that recovery may need, one not below the least floor; a Lock asks for the slots of all its parts
    Overwrite,
    /// 10: recovery finds an odd base word
    OddBase,
    /// 11: Log, Redo, Validate, Mark or Lock while the lock is held, or Continue on another lane than the lock's
    Locked,
    /// 12: Lock of a transaction that counts more than N - 17 slots: one an instruction, and one for each sixteen begun
    TooLong,
    /// 14: recovery without sizes finds no trailer that agrees with the length and the ranges
    Trailer,
    /// 15: Log, also one that settles, or Lock would take a timestamp further above the least floor than the lag limit
    LagPassed,
    /// 16: Format or recovery is given a lag limit that is odd, below 2 or above [`GREATEST_LAG`](crate::GREATEST_LAG)
    LagRange,
    /// a number that the library never returns
    Unknown(u64),
}

impl Refusal {
    const KNOWN: [Refusal; 15] = [
        Refusal::Size,
        Refusal::Record,
        Refusal::Lane,
        Refusal::Word,
        Refusal::Txn,
        Refusal::Logged,
        Refusal::Idle,
        Refusal::Spent,
        Refusal::Overwrite,
        Refusal::OddBase,
        Refusal::Locked,
        Refusal::TooLong,
        Refusal::Trailer,
        Refusal::LagPassed,
        Refusal::LagRange,
    ];

    /// The specification's number.
    pub const fn number(self) -> u64 {
        match self {
            Refusal::Unknown(number) => number,
            Refusal::Size => 1,
            Refusal::Record => 2,
            Refusal::Lane => 3,
            Refusal::Word => 4,
            Refusal::Txn => 5,
            Refusal::Logged => 6,
            Refusal::Idle => 7,
            Refusal::Spent => 8,
            Refusal::Overwrite => 9,
            Refusal::OddBase => 10,
            Refusal::Locked => 11,
            Refusal::TooLong => 12,
            Refusal::Trailer => 14,
            Refusal::LagPassed => 15,
            Refusal::LagRange => 16,
        }
    }

    fn text(self) -> &'static str {
        match self {
            Refusal::Size => "a size out of range, or a buffer of a length that does not fit",
            Refusal::Record => "a field of the record out of range",
            Refusal::Lane => "no such lane",
            Refusal::Word => "no such word in the image",
            Refusal::Txn => "no well-formed transaction",
            Refusal::Logged => "the lane holds a transaction",
            Refusal::Idle => "the lane holds no transaction, or the lock is free",
            Refusal::Spent => "the clock is spent",
            Refusal::Overwrite => "the log has no room that recovery does not need",
            Refusal::OddBase => "the image has an odd base word",
            Refusal::Locked => "the lock is held",
            Refusal::TooLong => "the transaction is too long for the log",
            Refusal::Trailer => "the image tells no sizes that agree with its length",
            Refusal::LagPassed => "the timestamp would pass the lag limit",
            Refusal::LagRange => "the lag limit is out of range",
            Refusal::Unknown(_) => "for a reason unknown to this crate",
        }
    }

    /// The number that a call returned: 0 is no refusal.
    pub(crate) fn taken(number: u64) -> Result<(), Refusal> {
        match number {
            0 => Ok(()),
            _ => Err(Refusal::KNOWN.into_iter().find(|refusal| refusal.number() == number).unwrap_or(Refusal::Unknown(number))),
        }
    }
}

impl fmt::Display for Refusal {
    fn fmt(&self, out: &mut fmt::Formatter<'_>) -> fmt::Result {
        write!(out, "refused {}: {}", self.number(), self.text())
    }
}

impl core::error::Error for Refusal {}
