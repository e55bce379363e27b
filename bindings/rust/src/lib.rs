//! The Vandzulge store for Rust: transactions on words of persistent memory, by safe calls of the proved static library. No `std`, no allocation, no dependencies.
//!
//! A store is an image in non-volatile memory, a cache of that image, and what the calls keep beside them, all lent by the caller in [`Buffers`]. [`Store::format`] makes a new
//! one, [`Store::recover`] makes one whole again after a power cut. In between, transactions of a few [`Instruction`]s are committed, in one or more *lanes*, each with a log.
//!
//! # Quick start
//! ```
//! use vandzulge::{Buffers, Instruction, Refusal, Sizes, Store, GREATEST_LAG, RECORD_WORDS};
//!
//! // 16 words of data, one lane, 64 slots in its log
//! const SIZES: Sizes = match Sizes::new(16, 1, 64) {
//!     Ok(sizes) => sizes,
//!     Err(_) => panic!("sizes out of range"),
//! };
//! const LENGTH: usize = SIZES.image_words();
//!
//! /// What power takes: all but the non-volatile memory.
//! fn cut_power(buffers: &mut Buffers) {
//!     buffers.cache.fill(77);
//!     buffers.flags.fill(0xff);
//!     buffers.record.fill(99);
//! }
//!
//! fn main() -> Result<(), Refusal> {
//!     // an array stands for the persistent memory
//!     let (mut nvm, mut cache, mut flags, mut record) = ([0; LENGTH], [0; LENGTH], [0; LENGTH], [0; RECORD_WORDS]);
//!     let mut buffers = Buffers { cache: &mut cache, nvm: &mut nvm, flags: &mut flags, record: &mut record };
//!     let add = [Instruction::Add { to: 0, from: 0, value: 1 }, Instruction::Add { to: 1, from: 1, value: 1 }];
//!
//!     let mut store = Store::format(&mut buffers, SIZES, GREATEST_LAG, &[0; 16])?;
//!     let stamp = store.commit(0, &add)?.expect("it writes");
//!     store.persist(0)?;
//!     assert!(store.is_safe(stamp));
//!
//!     cut_power(&mut buffers);
//!     let (mut store, recovery) = Store::recover(&mut buffers, GREATEST_LAG)?;
//!     assert_eq!((store.words()[0], store.words()[1], recovery.boundary), (1, 1, None));
//!
//!     // a drain alone keeps no commit: it is at the boundary, and both its writes are undone
//!     let stamp = store.commit(0, &add)?.expect("it writes");
//!     store.drain(0)?;
//!     assert_eq!((store.words()[0], store.is_safe(stamp)), (2, false));
//!
//!     cut_power(&mut buffers);
//!     let (store, recovery) = Store::recover(&mut buffers, GREATEST_LAG)?;
//!     assert_eq!((store.words()[0], recovery.boundary, recovery.undone), (1, Some(stamp), 2));
//!     Ok(())
//! }
//! ```
//! `examples/counters.rs` is a whole program, with a file as its memory. [`raw`] has the calls on words, as in C.
//!
//! # What a power cut can lose
//! After a power cut a lane gives its newest timestamp, or nothing where that is a mark; the least that is given is the *boundary*, and commits at or above it are undone. A lane's
//! *floor* in the record bounds from below what it gives; without one it gives nothing. So a commit is safe once each lane that has a floor has it above the commit's timestamp:
//! [`Store::is_safe`]. A lane that was marked and then drained has none until its log is appended to again, and delays no other lane. [`Store::settle`] is a Mark that drops no
//! transaction: its lane must be idle. `include/vandzulge.h` says more.
//!
//! The *lag limit*, given to Format and to each recovery, is how far a cut can go back: a Log is refused where its timestamp would be more than that above the least floor. So of the
//! commits made before the last Log that took a timestamp a cut takes at most half the limit, timestamps being even, and of those since then at most one a lane.
//!
//! # Long transactions
//! One of up to 64 instructions runs under a lock, of which the store has one: [`Store::long`] takes it, and each step of the [`LongTxn`] that it gives logs or writes a part of at
//! most 16 writes. The last step commits it and frees the lock; after a cut in any of them all of it stands or none. Until then other steps are refused, while drains and
//! write-backs go on, and the cached words show the parts that are written.
//!
//! # Images
//! An image has [`image_words`] words: the base word, the data words, each lane's log, and the last four, its *trailer*, which tell its sizes and how many words stand before them;
//! [`Store::recover`] goes by it. Images of earlier libraries have no trailer, and [`former_words`] words. Those are recovered with their sizes given, by [`Store::recover_former`],
//! and can be used on: every other call but Format takes both. Nothing in an image says which form it has: the last four words of one without a trailer may look like one, and
//! `recover` then destroys it. `include/vandzulge.h` says how an image is moved to the new form.
//!
//! # The platform
//! The library calls nothing but `memcpy` and `memset`, to which only Format hands a part of `nvm`; every other store to `nvm` is one aligned 64-bit word. What is left to the
//! platform: such a store is whole, also where power fails, and the stores reach the memory in the code's order. The library has no fences. `docs/INTEGRATION.md` says what a board
//! needs, and what to do where the memory does not keep that order.
#![no_std]

mod instruction;
mod long;
pub mod raw;
mod refusal;
mod sizes;
mod store;

pub use instruction::{Instruction, MAX_INSTRUCTIONS, MAX_LONG_INSTRUCTIONS};
pub use long::{Lock, Locked, LongTxn, Progress};
pub use refusal::Refusal;
pub use sizes::{former_words, image_words, Sizes, MAX_FORMER_WORDS, MAX_IMAGE_WORDS, MAX_LANES, MAX_SLOTS, MAX_WORDS, MIN_SLOTS};
pub use store::{Buffers, Log, Mark, Recovery, Redo, Store, Validate, GREATEST_LAG, LEAST_LAG, RECORD_WORDS};
