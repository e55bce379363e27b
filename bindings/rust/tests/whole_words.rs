//! No call but Format stores to non-volatile memory through `memset`, `memcpy` or `memmove`, which may store single bytes: this program's own ones notice where they are
//! handed a part of it. Every call and many recoveries run through them; and what a power cut inside a word would do.
#![cfg(target_arch = "x86_64")]

mod common;

use common::states::every_outcome;
use common::{images, plain, Call, Calls, Sizes, World, LIBRARY};
use std::sync::atomic::{AtomicUsize, Ordering::Relaxed};
use std::sync::Mutex;

/// `memset`, `memcpy` and `memmove` of the whole program, the library included.
mod own {
    use super::{AtomicUsize, Relaxed};
    use std::arch::asm;

    /// The bytes of non-volatile memory during a call, none between calls.
    pub static FROM: AtomicUsize = AtomicUsize::new(0);
    pub static TO: AtomicUsize = AtomicUsize::new(0);
    /// How often a part of it was handed over.
    pub static HANDED: AtomicUsize = AtomicUsize::new(0);

    fn notice(start: *const u8, bytes: usize) {
        if (start as usize) < TO.load(Relaxed) && FROM.load(Relaxed) < start as usize + bytes {
            HANDED.fetch_add(1, Relaxed);
        }
    }

    #[no_mangle]
    unsafe extern "C" fn memset(to: *mut u8, byte: i32, bytes: usize) -> *mut u8 {
        notice(to, bytes);
        // SAFETY: the caller's bytes
        unsafe { asm!("rep stosb", inout("rcx") bytes => _, inout("rdi") to => _, in("al") byte as u8, options(nostack)) };
        to
    }

    #[no_mangle]
    unsafe extern "C" fn memcpy(to: *mut u8, from: *const u8, bytes: usize) -> *mut u8 {
        notice(to, bytes);
        notice(from, bytes);
        // SAFETY: the caller's bytes
        unsafe { asm!("rep movsb", inout("rcx") bytes => _, inout("rdi") to => _, inout("rsi") from => _, options(nostack)) };
        to
    }

    #[no_mangle]
    unsafe extern "C" fn memmove(to: *mut u8, from: *const u8, bytes: usize) -> *mut u8 {
        if (to as usize).wrapping_sub(from as usize) >= bytes {
            // SAFETY: from the first byte on, no byte is read after it is overwritten
            return unsafe { memcpy(to, from, bytes) };
        }
        notice(to, bytes);
        notice(from, bytes);
        let (last_to, last_from) = (to.wrapping_add(bytes).wrapping_sub(1), from.wrapping_add(bytes).wrapping_sub(1));
        // SAFETY: the caller's bytes, from the last one down
        unsafe { asm!("std", "rep movsb", "cld", inout("rcx") bytes => _, inout("rdi") last_to => _, inout("rsi") last_from => _, options(nostack)) };
        to
    }
}

/// Makes the call. Its number, and how often it handed a part of `nvm` over.
fn watched(world: &mut World, calls: &Calls, call: &Call) -> (u64, usize) {
    static ONE_AT_A_TIME: Mutex<()> = Mutex::new(());
    let _one = ONE_AT_A_TIME.lock().unwrap_or_else(|poisoned| poisoned.into_inner());
    let bytes = world.nvm.as_ptr_range();
    own::HANDED.store(0, Relaxed);
    own::FROM.store(bytes.start as usize, Relaxed);
    own::TO.store(bytes.end as usize, Relaxed);
    let number = world.call(calls, call);
    own::TO.store(0, Relaxed);
    (number, own::HANDED.load(Relaxed))
}

/// Makes a call that must hand over nothing, and returns its number.
fn clean(world: &mut World, call: &Call, place: &str) -> u64 {
    let (number, handed) = watched(world, &LIBRARY, call);
    assert_eq!(
        handed, 0,
        "times that a part of nvm was handed to memset, memcpy or memmove: {place}, {call:?}, W {}, T {}, N {}",
        world.words, world.lanes, world.slots
    );
    number
}

#[test]
fn no_call_but_format() {
    every_outcome(100, 1, |world, call, place| match call {
        Call::Format(_) => watched(world, &LIBRARY, call).0,
        _ => clean(world, call, place),
    });
}

/// The longest transaction under the lock, twice around the log, with every step's drain.
#[test]
fn no_step_of_a_long_transaction() {
    let mut world = World::new(1024, 8, 256);
    assert_eq!(watched(&mut world, &LIBRARY, &Call::Format(vec![5; 1024])).0, 0);
    let txn: Vec<u64> = (0..64).flat_map(|number| [3, 16 * number, 16 * number, 1]).collect();
    for turn in 0..8 {
        let place = format!("turn {turn}");
        assert_eq!(clean(&mut world, &Call::Lock(7, txn.clone()), &place), 0);
        for left in [64, 48, 48, 32, 32, 16, 16, 0] {
            assert_eq!(clean(&mut world, &Call::Continue(7), &place), 0);
            assert_eq!(world.answer[0], left, "{place}");
        }
        assert_eq!((clean(&mut world, &Call::Mark(7), &place), clean(&mut world, &Call::Drain(7), &place)), (0, 0));
    }
    assert_eq!((world.nvm[1], world.nvm[2], world.nvm[1 + 16 * 63]), (13, 5, 13));
}

#[test]
fn no_recovery_with_any_limit() {
    for (words, lanes, slots) in [(1, 1, 34), (16, 1, 34), (16, 3, 101), (256, 4, 64), (1024, 8, 256)] {
        for logs in images::ALL {
            let sizes = Sizes { words, lanes, slots };
            let (image, former) = (images::image(sizes, logs), images::former_image(sizes, logs));
            let stores = plain::recovery_read_stores(&image).len();
            // all limits of small images, and every so many of the others
            for limit in (0..=stores).step_by(1 + stores / 200).chain([stores - 1, stores, usize::MAX]) {
                let recovery = |mut world: World, image: &Vec<u64>, call: Call| {
                    world.nvm.clone_from(image);
                    assert_eq!(clean(&mut world, &call, &format!("{logs:?}")), 0);
                    assert_eq!(world.answer[0] == 0, limit < stores, "{logs:?}, limit {limit} of {stores}");
                };
                recovery(World::new(words, lanes, slots), &image, Call::RecoverRead(limit));
                recovery(World::former(words, lanes, slots), &former, Call::Recover(limit));
            }
        }
    }
}

/// A log that went around twice, and of whose first slot one word of the second lap is written back and one of the first remains: the old value 2^64 - 1 behind a mark's
/// address word. The slot is torn by its lowest bit alone.
fn torn_slot() -> World {
    let mut world = World::new(1, 1, 34);
    assert_eq!(world.call(&LIBRARY, &Call::Format(vec![u64::MAX])), 0);
    let marks = |world: &mut World, count| (0..count).for_each(|_| assert_eq!(clean(world, &Call::Mark(0), "torn slot"), 0));
    marks(&mut world, 34);
    assert_eq!(clean(&mut world, &Call::Log(0, vec![1, 0, 0, 5]), "torn slot"), 0);
    marks(&mut world, 33);
    assert_eq!(clean(&mut world, &Call::WriteBack(2), "torn slot"), 0);
    assert_eq!(world.nvm[2..4], [32_769, u64::MAX - 1]);
    world
}

#[test]
fn a_cut_after_any_store() {
    let cut = torn_slot();
    let stores = plain::recovery_read_stores(&cut.nvm).len();
    let mut whole = cut.clone();
    assert_eq!(clean(&mut whole, &Call::RecoverRead(usize::MAX), "torn slot"), 0);
    assert_eq!((whole.nvm[0], whole.record[0], whole.nvm[1]), (134, 134, u64::MAX));
    for limit in 0..=stores {
        let mut world = cut.clone();
        assert_eq!(clean(&mut world, &Call::RecoverRead(limit), "cut"), 0);
        assert_eq!(clean(&mut world, &Call::RecoverRead(usize::MAX), "after a cut"), 0);
        assert!((&world.cache, &world.nvm, &world.record) == (&whole.cache, &whole.nvm, &whole.record), "after {limit} of {stores} stores");
    }
}

/// What the rule is for: with the first log word cleared by one byte instead of whole, the slot is a whole timestamp of 2^64 - 2, and the next recovery spends the clock.
#[test]
fn a_cut_inside_a_word_would_spend_the_clock() {
    let mut world = torn_slot();
    let before_the_logs = plain::recovery_read_stores(&world.nvm).len() - 68;
    assert_eq!(world.call(&LIBRARY, &Call::RecoverRead(before_the_logs)), 0);
    world.nvm[2] &= !0xff;
    assert_eq!(world.call(&LIBRARY, &Call::RecoverRead(usize::MAX)), 0);
    assert_eq!(world.record[0], u64::MAX - 1);
    assert_eq!(world.call(&LIBRARY, &Call::Mark(0)), 8);
}

/// The control: the library is linked with the functions above, and calls that clear or copy a part of `nvm` with them are noticed.
#[test]
fn what_is_handed_over_is_noticed() {
    fn clears(w: usize, _: usize, _: usize, _: u64, _: &mut [u64], nvm: &mut [u64], _: &mut [u8], _: &mut [u64], _: &mut [u64], _: usize) -> u64 {
        let logs = &mut nvm[1 + w..];
        // SAFETY: a slice's words, and 0 is one
        unsafe { logs.as_mut_ptr().write_bytes(0, logs.len()) };
        0
    }
    fn copies(_: usize, _: usize, _: usize, cache: &[u64], nvm: &mut [u64], _: &mut [u8], _: &mut [u64], _: usize) -> u64 {
        nvm.copy_from_slice(cache);
        0
    }
    fn reads(_: u64, cache: &mut [u64], nvm: &mut [u64], _: &mut [u8], _: &mut [u64], _: &mut [u64], _: usize) -> u64 {
        cache.copy_from_slice(nvm);
        0
    }
    let faulty = Calls { recover: clears, recover_read: reads, drain: copies, ..LIBRARY };
    let mut world = World::new(16, 1, 34);
    assert_ne!(watched(&mut world, &LIBRARY, &Call::Format(vec![5; 16])).1, 0, "Format clears logs with memset");
    assert_ne!(watched(&mut world, &faulty, &Call::Recover(usize::MAX)).1, 0);
    assert_ne!(watched(&mut world, &faulty, &Call::RecoverRead(usize::MAX)).1, 0);
    assert_ne!(watched(&mut world, &faulty, &Call::Drain(0)).1, 0);
}
