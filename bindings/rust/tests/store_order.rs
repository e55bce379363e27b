//! The compiled library's stores, one by one, in the order that the crash theorem assumes: to non-volatile memory only aligned words, in a step only those that its lane
//! has flushed and before any change of the cache, in recovery the entries undone, then the base, then the logs, never the trailer, and then the cache. x86-64 Linux.
#![cfg(all(target_arch = "x86_64", target_os = "linux"))]

mod common;

use common::states::every_outcome;
use common::stores::{traced, Image, Store};
use common::{images, plain, Call, Sizes, World, LIBRARY};

/// Do the stores of a call that answered this number keep to the order? `before` is what it was lent.
fn ordered(before: &World, call: &Call, number: u64, stores: &[Store]) -> Result<(), String> {
    let to_cache = stores.iter().position(|store| store.image == Image::Cache).unwrap_or(stores.len());
    let (to_nvm, to_cache) = stores.split_at(to_cache);
    if let Some(store) = stores.iter().find(|store| store.image == Image::Nvm && (store.width != Some(8) || store.byte % 8 != 0)) {
        return Err(format!("no store of one aligned word: {store:?}"));
    }
    if let Some(store) = to_cache.iter().find(|store| store.image == Image::Nvm) {
        return Err(format!("to nvm after the first store to the cache: {store:?}"));
    }
    let made: Vec<(usize, u64)> = to_nvm.iter().map(|store| (store.byte / 8, store.value)).collect();
    let expected = if number == 0 { expected(before, call, &made) } else { vec![] };
    if made != expected {
        let first = (0..).find(|&i| made.get(i) != expected.get(i)).unwrap_or(0);
        return Err(format!("store {first} of {} to nvm is {:?}, not {:?}", made.len(), made.get(first), expected.get(first)));
    }
    let may_cache = match call {
        Call::WriteBack(_) | Call::Drain(_) => false,
        Call::Recover(limit) | Call::RecoverRead(limit) => *limit >= recovery_stores(before, call).len(),
        _ => true,
    };
    match to_cache.first() {
        Some(store) if number != 0 || !may_cache => Err(format!("to the cache: {store:?}")),
        _ => Ok(()),
    }
}

/// The words and values that a call which is not refused stores to non-volatile memory. A drain's may come in any order: it is that of the stores made.
fn expected(before: &World, call: &Call, made: &[(usize, u64)]) -> Vec<(usize, u64)> {
    match call {
        Call::WriteBack(word) => vec![(*word, before.cache[*word])],
        Call::Recover(limit) | Call::RecoverRead(limit) => {
            let data_words = match call {
                Call::Recover(_) => before.words,
                _ => before.nvm[before.nvm.len() - 4] as usize,
            };
            // a log word that is 0 already takes no store
            let zero_already = |&(word, _): &(usize, u64)| word > data_words && before.nvm[word] == 0;
            recovery_stores(before, call).into_iter().take(*limit).filter(|store| !zero_already(store)).collect()
        }
        Call::Drain(lane) | Call::Log(lane, _) | Call::Redo(lane) | Call::Validate(lane, _) | Call::Mark(lane) | Call::Lock(lane, _) | Call::Continue(lane) => {
            let place = |word| made.iter().position(|store| store.0 == word).unwrap_or(made.len());
            let mut flushed: Vec<usize> = (0..before.flags.len()).filter(|&word| before.flags[word] >> lane & 1 == 1).collect();
            flushed.sort_by_key(|&word| place(word));
            flushed.into_iter().map(|word| (word, before.cache[word])).collect()
        }
        Call::Format(_) => made.to_vec(),
    }
}

/// All stores of a recovery where no limit cuts it.
fn recovery_stores(world: &World, call: &Call) -> Vec<(usize, u64)> {
    match call {
        Call::Recover(_) => plain::recovery_stores(world.words, world.lanes, world.slots, &world.nvm),
        _ => plain::recovery_read_stores(&world.nvm),
    }
}

/// Makes the library's call, and asserts that its stores keep to the order.
fn library(world: &mut World, call: &Call, place: &str) -> u64 {
    let before = world.clone();
    let (mut cache, mut nvm) = (world.cache.clone(), world.nvm.clone());
    let (number, stores) = traced(&mut cache, &mut nvm, |cache, nvm| world.call_on(&LIBRARY, call, cache, nvm));
    (world.cache, world.nvm) = (cache, nvm);
    if let Err(fault) = ordered(&before, call, number, &stores) {
        panic!("{fault}; {place}, {call:?}, W {}, T {}, N {}", world.words, world.lanes, world.slots);
    }
    number
}

#[test]
fn every_call_stores_in_order() {
    every_outcome(50, 1, |world, call, place| match call {
        // Format may store as it likes
        Call::Format(_) => world.call(&LIBRARY, call),
        _ => library(world, call, place),
    });
}

/// The longest transaction under the lock, twice around the log.
#[test]
fn a_long_transaction_stores_in_order() {
    for (words, lanes, slots) in [(1, 1, 85), (7, 3, 101), (1024, 8, 256)] {
        let mut world = World::new(words, lanes, slots);
        assert_eq!(world.call(&LIBRARY, &Call::Format(vec![5; words])), 0);
        let txn: Vec<u64> = (0..64).flat_map(|number| [3, number % words as u64, number % words as u64, 1]).collect();
        let lane = lanes - 1;
        for turn in 0..8 {
            let place = format!("turn {turn}");
            assert_eq!(library(&mut world, &Call::Lock(lane, txn.clone()), &place), 0);
            for left in [64, 48, 48, 32, 32, 16, 16, 0] {
                assert_eq!(library(&mut world, &Call::Continue(lane), &place), 0);
                assert_eq!(world.answer[0], left, "{place}");
            }
            assert_eq!((library(&mut world, &Call::Mark(lane), &place), library(&mut world, &Call::Drain(lane), &place)), (0, 0));
        }
    }
}

#[test]
fn recovery_stores_in_order_up_to_any_limit() {
    for (words, lanes, slots) in [(1, 1, 34), (16, 1, 34), (16, 3, 101), (256, 4, 64), (1024, 8, 256)] {
        for logs in images::ALL {
            let sizes = Sizes { words, lanes, slots };
            let mut former = World::former(words, lanes, slots);
            former.nvm = images::former_image(sizes, logs);
            let mut world = World::new(words, lanes, slots);
            world.nvm = images::image(sizes, logs);
            let stores = recovery_stores(&world, &Call::RecoverRead(0)).len();
            // all limits of small images, and some of the others
            for limit in (0..=stores).step_by(if stores <= 110 { 1 } else { stores / 3 }).chain([stores - 1, stores, usize::MAX]) {
                assert_eq!(library(&mut world.clone(), &Call::RecoverRead(limit), &format!("{logs:?}")), 0);
                // with the sizes given, fewer limits
                if limit % 4 == 0 || limit >= stores - 1 {
                    assert_eq!(library(&mut former.clone(), &Call::Recover(limit), &format!("{logs:?}")), 0);
                }
            }
        }
    }
}

// ---- Controls: stand-ins that store as asked, in order and not ----

/// The fault found in a call that makes these stores, where it answers this number.
fn stand_in(before: &World, call: &Call, number: u64, stores: &[(Image, usize, u64)]) -> Result<(), String> {
    let ((), traced) = traced(&mut before.cache.clone(), &mut before.nvm.clone(), |cache, nvm| {
        for &(image, word, value) in stores {
            let place = if image == Image::Nvm { &mut nvm[word] } else { &mut cache[word] };
            // SAFETY: a place of its own
            unsafe { (place as *mut u64).write_volatile(value) };
        }
    });
    let seen: Vec<(Image, usize, u64)> = traced.iter().map(|store| (store.image, store.byte / 8, store.value)).collect();
    assert!(seen == stores && traced.iter().all(|store| store.width == Some(8)), "each store is seen once, as it was made");
    ordered(before, call, number, &traced)
}

fn assert_fault(found: Result<(), String>, fault: &str) {
    assert!(found.as_ref().is_err_and(|text| text.contains(fault)), "{found:?} instead of: {fault}");
}

#[test]
fn steps_out_of_order_are_seen() {
    use Image::{Cache, Nvm};
    let mut world = World::new(2, 2, 34);
    world.cache[1..8].copy_from_slice(&[51, 52, 53, 54, 55, 56, 57]);
    world.flags[2..5].copy_from_slice(&[1, 3, 2]);
    let mark = Call::Mark(0);
    let step = |stores: &[(Image, usize, u64)]| stand_in(&world, &mark, 0, stores);
    assert_eq!(step(&[(Nvm, 2, 52), (Nvm, 3, 53), (Cache, 3, 7)]), Ok(()));
    assert_eq!(step(&[(Nvm, 3, 53), (Nvm, 2, 52), (Cache, 3, 7), (Cache, 4, 8)]), Ok(()));
    assert_fault(step(&[(Nvm, 2, 52), (Cache, 3, 7), (Nvm, 3, 53)]), "to nvm after the first store to the cache");
    assert_fault(step(&[(Nvm, 2, 52), (Cache, 3, 7)]), "store 1 of 1 to nvm is None, not Some((3, 53))");
    assert_fault(step(&[(Nvm, 2, 52), (Nvm, 3, 53), (Nvm, 4, 54)]), "store 2 of 3 to nvm is Some((4, 54)), not None");
    assert_fault(step(&[(Nvm, 2, 52), (Nvm, 3, 7), (Cache, 3, 7)]), "store 1 of 2 to nvm is Some((3, 7)), not Some((3, 53))");
    assert_fault(stand_in(&world, &Call::Drain(0), 0, &[(Nvm, 2, 52), (Nvm, 3, 53), (Cache, 3, 53)]), "to the cache");
    assert_fault(stand_in(&world, &Call::WriteBack(1), 0, &[(Nvm, 1, 51), (Nvm, 1, 51)]), "store 1 of 2 to nvm");
    assert_fault(stand_in(&world, &mark, 9, &[(Nvm, 2, 0)]), "store 0 of 1 to nvm is Some((2, 0)), not None");
    assert_fault(stand_in(&world, &mark, 9, &[(Cache, 2, 52)]), "to the cache");
}

/// Faults in the order of a recovery's stores, by either call.
fn recoveries_out_of_order(world: &World, call: fn(usize) -> Call) {
    let all: Vec<_> = [(1, 7), (0, 2), (3, 0), (4, 0), (5, 0), (6, 0)].map(|(word, value)| (Image::Nvm, word, value)).to_vec();
    let recovery = |limit: usize, stores: &[(Image, usize, u64)]| stand_in(world, &call(limit), 0, stores);
    let swapped = |a: usize, b: usize| {
        let mut stores = all.clone();
        stores.swap(a, b);
        stores
    };
    let cached = [(Image::Cache, 1, 7)];
    assert_eq!(recovery(usize::MAX, &[&all[..], &cached].concat()), Ok(()));
    assert_eq!(recovery(4, &all[..4]), Ok(()));
    assert_fault(recovery(usize::MAX, &swapped(0, 1)), "store 0 of 6 to nvm is Some((0, 2)), not Some((1, 7))");
    assert_fault(recovery(usize::MAX, &swapped(1, 2)), "store 1 of 6");
    assert_fault(recovery(usize::MAX, &swapped(3, 4)), "store 3 of 6");
    assert_fault(recovery(usize::MAX, &[&all[..], &[(Image::Nvm, 7, 0)]].concat()), "store 6 of 7");
    assert_fault(recovery(4, &all[..5]), "store 4 of 5 to nvm is Some((5, 0)), not None");
    assert_fault(recovery(usize::MAX, &all[..5]), "store 5 of 5 to nvm is None");
    assert_fault(recovery(4, &[&all[..4], &cached].concat()), "to the cache");
    assert_fault(recovery(usize::MAX, &[&cached, &all[..]].concat()), "to nvm after the first store to the cache");
    // the last word, even with the value that it has
    let last = world.nvm.len() - 1;
    assert_fault(recovery(usize::MAX, &[&all[..], &[(Image::Nvm, last, world.nvm[last])]].concat()), "store 6 of 7");
}

#[test]
fn recoveries_out_of_order_are_seen() {
    let mut former = World::former(2, 1, 34);
    former.nvm[1..7].copy_from_slice(&[9, 0, 11, 7, 32_777, 3]);
    recoveries_out_of_order(&former, Call::Recover);
    // the sizes are those at the end, not those of the world
    let mut world = World::new(2, 1, 34);
    world.nvm[..71].copy_from_slice(&former.nvm);
    world.nvm[71..].copy_from_slice(&[2, 1, 34, 71]);
    (world.words, world.lanes, world.slots) = (40, 2, 50);
    recoveries_out_of_order(&world, Call::RecoverRead);
}

#[test]
fn stores_of_other_widths_are_seen() {
    let mut world = World::former(2, 1, 34);
    world.nvm[3] = u64::MAX;
    let recovery = |clear: fn(*mut u64)| {
        let ((), stores) = traced(&mut world.cache.clone(), &mut world.nvm.clone(), |_, nvm| clear(&mut nvm[3]));
        ordered(&world, &Call::Recover(usize::MAX), 0, &stores)
    };
    // SAFETY, of each: bytes of the log, of which the first is that word's
    assert_fault(recovery(|word| unsafe { word.cast::<u8>().write_volatile(0) }), "width: Some(1)");
    assert_fault(recovery(|word| unsafe { word.cast::<u16>().write_volatile(0) }), "width: Some(2)");
    assert_fault(recovery(|word| unsafe { word.cast::<u32>().write_volatile(0) }), "width: Some(4)");
    assert_fault(recovery(|word| unsafe { word.byte_add(4).write_unaligned(0) }), "no store of one aligned word");
    assert_fault(recovery(|word| unsafe { word.write_bytes(0, 32) }), "width: None");
}
