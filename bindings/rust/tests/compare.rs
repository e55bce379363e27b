//! Every call through the static library beside the plain implementation, on many pseudo-random states, valid and damaged:
//! the number, the answer, the record and every word of the three buffers must be the same, and a refusal must leave all as it was.

mod common;

use common::states::{every_outcome, BAD_LAGS, LOCK_PAIRS};
use common::{images, plain, trailers, Call, Random, Sizes, World, LIBRARY, PLAIN};
use vandzulge::raw::{LAG_WORD, LOCK_WORD};
use vandzulge::GREATEST_LAG;

/// Makes the call on both, compares all, and keeps what they left. Its number.
fn both(world: &mut World, call: &Call, place: &str) -> u64 {
    let before = world.clone();
    let mut other = world.clone();
    let expected = world.call(&PLAIN, call);
    let number = other.call(&LIBRARY, call);
    let told = || format!("{place}: {call:?}, W {}, T {}, N {}, lag limit {}", before.words, before.lanes, before.slots, before.max_lag);
    assert_eq!(number, expected, "number: {}", told());
    assert_eq!(other.answer, world.answer, "answer: {}", told());
    assert_eq!(other.record, world.record, "record: {}", told());
    assert!(other.cache == world.cache, "cache: {}", told());
    assert!(other.nvm == world.nvm, "nvm: {}", told());
    assert!(other.flags == world.flags, "flags: {}", told());
    if number != 0 {
        assert!(other == before, "refused {number}, and not left as it was: {}", told());
    }
    number
}

#[test]
fn same_on_pseudo_random_calls() {
    every_outcome(300, 5, both);
}

/// On every state a Log of no words that is taken leaves and answers what Mark does. It is refused wherever Mark is, and beyond that only with 6 and 15.
#[test]
fn settled_as_by_a_mark() {
    // taken, and refused with 6 and with 15 where Mark is taken
    let mut seen = [0; 3];
    every_outcome(100, 1, |world, call, place| {
        let lane = call.drains().unwrap_or(0);
        let (mut settled, mut marked) = (world.clone(), world.clone());
        let numbers = (settled.call(&LIBRARY, &Call::Log(lane, vec![])), marked.call(&LIBRARY, &Call::Mark(lane)));
        match numbers {
            (0, 0) => {
                assert!(settled == marked, "{place}, lane {lane}");
                seen[0] += 1;
            }
            (6, 0) => {
                assert_eq!(marked.answer[0], 1, "{place}, lane {lane}");
                seen[1] += 1;
            }
            (15, 0) => seen[2] += 1,
            (6, 8 | 9 | 11) | (15, 9) => {}
            (number, mark) => assert_eq!(number, mark, "{place}, lane {lane}"),
        }
        world.call(&PLAIN, call)
    });
    println!("taken: {}; with Mark taken, refused with 6: {}, with 15: {}", seen[0], seen[1], seen[2]);
    assert!(seen.iter().all(|&times| times > 500));
}

/// A store after a power cut, with this non-volatile memory: anything in cache, flags and record.
fn cut(sizes: Sizes, nvm: Vec<u64>) -> World {
    let mut world = World::of_length(sizes.words, sizes.lanes, sizes.slots, nvm.len());
    world.nvm = nvm;
    world.cache.fill(3);
    world.flags.fill(0xff);
    world.record.fill(5);
    world.answer.fill(7);
    world
}

const RECOVERED: [Sizes; 7] = [
    Sizes { words: 1, lanes: 1, slots: 34 },
    Sizes { words: 16, lanes: 1, slots: 34 },
    Sizes { words: 16, lanes: 3, slots: 101 },
    Sizes { words: 256, lanes: 4, slots: 64 },
    Sizes { words: 1024, lanes: 8, slots: 256 },
    Sizes { words: 7, lanes: 8, slots: 255 },
    Sizes { words: 1023, lanes: 2, slots: 35 },
];

#[test]
fn same_on_the_recovery_images() {
    for sizes in RECOVERED {
        for logs in images::ALL {
            let stores = 2 * sizes.lanes * sizes.slots + 1;
            for limit in [0, 1, 5, stores - 1, stores, stores + 100, usize::MAX] {
                let place = format!("{logs:?}, limit {limit}");
                let mut former = cut(sizes, images::former_image(sizes, logs));
                let mut new = cut(sizes, images::image(sizes, logs));
                assert_eq!(both(&mut former, &Call::Recover(limit), &place), 0);
                assert_eq!(both(&mut new, &Call::RecoverRead(limit), &place), 0);
                // the two recoveries differ in the trailer alone
                let length = former.nvm.len();
                assert!(new.nvm[..length] == former.nvm[..] && new.cache[..length] == former.cache[..], "{place}");
                assert!((&new.answer, &new.record) == (&former.answer, &former.record), "{place}");
            }
        }
    }
}

/// Each image is the case that it is named for: whether there is a boundary, how many entries are undone, and how many slots are torn.
#[test]
fn the_recovery_images_are_what_they_say() {
    for sizes in RECOVERED {
        let [lanes, slots] = [sizes.lanes, sizes.slots].map(|number| number as u64);
        for logs in images::ALL {
            let mut world = cut(sizes, images::image(sizes, logs));
            assert_eq!(both(&mut world, &Call::RecoverRead(usize::MAX), "image"), 0);
            let (boundary, undone, torn) = match logs {
                images::Logs::Empty | images::Logs::Marked | images::Logs::Incomplete => (false, 0, 0),
                images::Logs::EqualMarks | images::Logs::MixedMarks => (true, 1, 0),
                images::Logs::Singles => (true, 1 + (lanes - 1) * (slots / 2), 0),
                images::Logs::EqualSequences => (true, 16 * lanes * (slots / 17), 0),
                images::Logs::MixedSequences => (true, 16 + 16 * (lanes - 1) * (slots / 17), 0),
                images::Logs::Torn => (false, 0, lanes * slots),
            };
            assert_eq!((world.answer[0] == 2, world.answer[2], world.answer[3]), (boundary, undone, torn), "{logs:?}, {sizes:?}");
        }
    }
}

#[test]
fn each_recovery_takes_one_length() {
    for sizes in RECOVERED {
        for logs in images::ALL {
            let mut new = cut(sizes, images::image(sizes, logs));
            assert_eq!(both(&mut new, &Call::Recover(usize::MAX), "sizes given, new length"), 1);
            let mut former = cut(sizes, images::former_image(sizes, logs));
            assert_eq!(both(&mut former, &Call::RecoverRead(usize::MAX), "sizes not given, former length"), 14);
        }
    }
}

/// At every limit the trailer stays in the cells; the cache has it when recovery finished, and is as it was before that.
#[test]
fn no_recovery_touches_the_trailer() {
    for (sizes, step) in [(RECOVERED[0], 1), (RECOVERED[1], 1), (RECOVERED[2], 7), (RECOVERED[4], 1_001)] {
        let length = 1 + sizes.words + 2 * sizes.lanes * sizes.slots;
        let trailer = [sizes.words as u64, sizes.lanes as u64, sizes.slots as u64, length as u64];
        for logs in images::ALL {
            let cells = images::image(sizes, logs);
            assert_eq!(cells[length..], trailer);
            // at most an entry a slot, the base word, two words a slot
            let most = 3 * sizes.lanes * sizes.slots + 1;
            for limit in (0..most).step_by(step).chain([most, usize::MAX]) {
                let mut world = cut(sizes, cells.clone());
                assert_eq!(both(&mut world, &Call::RecoverRead(limit), "limit"), 0);
                assert_eq!(world.nvm[length..], trailer, "{logs:?}, limit {limit}");
                if world.answer[0] == 0 {
                    assert!(world.cache.iter().all(|&word| word == 3) && world.flags.iter().all(|&flag| flag == 0xff), "{logs:?}, limit {limit}");
                } else {
                    assert!(world.cache == world.nvm && world.flags.iter().all(|&flag| flag == 0), "{logs:?}, limit {limit}");
                }
            }
        }
    }
}

/// Every kind of bad trailer is refused with 14, and with nothing touched: behind refusal 1, before refusal 10.
#[test]
fn bad_trailers_are_refused() {
    for sizes in RECOVERED {
        for logs in [images::Logs::Empty, images::Logs::MixedSequences] {
            let image = images::image(sizes, logs);
            let before = image.len() - 4;
            for trailer in trailers::bad(sizes) {
                let place = format!("trailer {trailer:?}");
                let mut world = cut(sizes, [&image[..before], &trailer[..]].concat());
                assert_eq!(both(&mut world, &Call::RecoverRead(usize::MAX), &place), 14, "{place}");
                world.nvm[0] = 1;
                assert_eq!(both(&mut world, &Call::RecoverRead(0), &place), 14, "{place}, odd base");
                world.flags.push(0);
                assert_eq!(both(&mut world, &Call::RecoverRead(usize::MAX), &place), 1, "{place}, flags too long");
            }
            // the right one behind too few words, or too many
            for words in [0, 1, before - 4, before - 1, before + 1, before + 4] {
                let mut world = cut(sizes, [&vec![0; words][..], &image[before..]].concat());
                assert_eq!(both(&mut world, &Call::RecoverRead(usize::MAX), "length"), 14, "{words} words before the trailer");
            }
            let mut odd = cut(sizes, image);
            odd.nvm[0] = u64::MAX;
            assert_eq!(both(&mut odd, &Call::RecoverRead(usize::MAX), "odd base"), 10);
        }
    }
    for length in 0..4 {
        for word in [0, 1, 34, u64::MAX] {
            let mut world = cut(RECOVERED[0], vec![word; length]);
            assert_eq!(both(&mut world, &Call::RecoverRead(usize::MAX), "short"), 14, "{length} words");
        }
    }
}

/// Cells, cache and flags of one length each, new or former, in every combination: Format takes three new ones, recovery with sizes three former ones, a step either three.
#[test]
fn mixed_lengths_are_refused() {
    let sizes = Sizes { words: 5, lanes: 2, slots: 40 };
    let calls = [
        Call::Format(vec![1; 5]),
        Call::WriteBack(3),
        Call::Drain(0),
        Call::Log(0, vec![1, 0, 0, 7]),
        Call::Log(0, vec![]),
        Call::Redo(1),
        Call::Validate(1, vec![1, 1, 0, 7]),
        Call::Mark(0),
        Call::Lock(0, vec![1, 0, 0, 7]),
        Call::Continue(0),
        Call::Recover(usize::MAX),
        Call::RecoverRead(usize::MAX),
    ];
    let mut start = World::new(sizes.words, sizes.lanes, sizes.slots);
    assert_eq!(both(&mut start, &Call::Format(vec![1; 5]), "start"), 0);
    assert_eq!(both(&mut start, &Call::Log(1, vec![1, 1, 0, 7]), "start"), 0);
    let (new, former) = (start.nvm.len(), start.nvm.len() - 4);
    for which in 0..8 {
        let [nvm, cache, flags] = [1, 2, 4].map(|bit| if which & bit == 0 { new } else { former });
        for call in &calls {
            let mut world = start.clone();
            world.nvm.truncate(nvm);
            world.cache.truncate(cache);
            world.flags.truncate(flags);
            let expected = match (which, call) {
                // the lock is free
                (0 | 7, Call::Continue(_)) => 7,
                (0, Call::Recover(_)) | (7, Call::Format(_)) => 1,
                (7, Call::RecoverRead(_)) => 14,
                (0 | 7, _) => 0,
                _ => 1,
            };
            assert_eq!(both(&mut world, call, "lengths"), expected, "{call:?}, cells {nvm}, cache {cache}, flags {flags}");
        }
    }
}

/// The last word of an image can be written back, and no word behind it.
#[test]
fn write_back_goes_by_the_length() {
    for (mut world, length) in [(World::new(16, 3, 101), 627), (World::former(16, 3, 101), 623)] {
        world.cache.fill(9);
        for word in length - 5..length {
            assert_eq!(both(&mut world, &Call::WriteBack(word), "in the image"), 0);
            assert_eq!(world.nvm[word], 9);
        }
        assert_eq!(both(&mut world, &Call::WriteBack(length), "behind the image"), 4);
    }
}

/// An image of the former length whose last four words look like a trailer is read with the sizes that they tell.
#[test]
fn the_call_decides_which_form_an_image_has() {
    let random = &mut Random::new(8);
    let mut lookalikes = 0;
    for sizes in RECOVERED {
        for logs in images::ALL {
            let mut image = images::former_image(sizes, logs);
            let length = image.len();
            // the smallest image has the length of no image with a trailer
            let Some(trailer) = trailers::fitting(random, length) else { continue };
            lookalikes += 1;
            image[length - 4..].copy_from_slice(&trailer);
            let mut read = cut(sizes, image.clone());
            assert_eq!(both(&mut read, &Call::RecoverRead(usize::MAX), "as one of the new length"), 0);
            assert_eq!(read.nvm[length - 4..], trailer);
            let mut given = cut(sizes, image);
            assert_eq!(both(&mut given, &Call::Recover(usize::MAX), "as one of the former length"), 0);
            assert_eq!(given.nvm[length - 4..], [0; 4]);
        }
    }
    assert!(lookalikes >= 2 * images::ALL.len(), "{lookalikes} images that look like both");
}

/// 16 stands behind 1 and 14, and before 10; whatever is in range is taken and stands in the record of the start.
#[test]
fn lag_limits_of_a_start() {
    let sizes = RECOVERED[2];
    let start = vec![1; sizes.words];
    let taken = [2, 4, GREATEST_LAG - 2, GREATEST_LAG];
    for max_lag in BAD_LAGS.into_iter().chain(taken) {
        // what stands where the limit is no cause for refusal
        let or = |number| if taken.contains(&max_lag) { number } else { 16 };
        let number = |mut world: World, call: Call| {
            world.max_lag = max_lag;
            let number = both(&mut world, &call, "lag limit");
            assert!(number != 0 || world.record[LAG_WORD] == max_lag, "{call:?}, {max_lag}");
            number
        };
        let blank = World::new(sizes.words, sizes.lanes, sizes.slots);
        assert_eq!(number(blank.clone(), Call::Format(start.clone())), or(0), "{max_lag}");
        assert_eq!(number(blank, Call::Format(vec![])), 1, "{max_lag}");

        let recover = || Call::Recover(usize::MAX);
        let mut former = cut(sizes, images::former_image(sizes, images::Logs::MixedSequences));
        assert_eq!(number(former.clone(), recover()), or(0), "{max_lag}");
        former.nvm[0] = 1;
        assert_eq!(number(former.clone(), recover()), or(10), "{max_lag}");
        former.flags.push(0);
        assert_eq!(number(former, recover()), 1, "{max_lag}");

        let recover_read = || Call::RecoverRead(usize::MAX);
        let mut new = cut(sizes, images::image(sizes, images::Logs::MixedSequences));
        assert_eq!(number(new.clone(), recover_read()), or(0), "{max_lag}");
        new.nvm[0] = 1;
        assert_eq!(number(new.clone(), recover_read()), or(10), "{max_lag}");
        *new.nvm.last_mut().unwrap() += 1;
        assert_eq!(number(new.clone(), recover_read()), 14, "{max_lag}");
        new.flags.push(0);
        assert_eq!(number(new, recover_read()), 1, "{max_lag}");
    }
}

/// A record whose lag limit is out of range: every call that reads the record refuses it, and those that make a new one do not look at it.
#[test]
fn lag_limits_of_a_damaged_record() {
    let mut start = World::new(2, 2, 34);
    assert_eq!(both(&mut start, &Call::Format(vec![1; 2]), "start"), 0);
    assert_eq!(both(&mut start, &Call::Log(1, vec![1, 1, 0, 7]), "start"), 0);
    let set = vec![1, 0, 0, 7];
    for max_lag in BAD_LAGS {
        let number = |call: Call| {
            let mut world = start.clone();
            world.record[LAG_WORD] = max_lag;
            both(&mut world, &call, "damaged lag limit")
        };
        for call in
            [Call::Drain(0), Call::Log(0, set.clone()), Call::Log(2, vec![]), Call::Redo(1), Call::Validate(1, set.clone()), Call::Mark(0), Call::Mark(2)]
        {
            assert_eq!(number(call), 2, "{max_lag}");
        }
        for call in [Call::Lock(0, set.clone()), Call::Lock(2, vec![]), Call::Continue(0)] {
            assert_eq!(number(call), 2, "{max_lag}");
        }
        for call in [Call::WriteBack(0), Call::Format(vec![1; 2]), Call::RecoverRead(usize::MAX)] {
            assert_eq!(number(call), 0, "{max_lag}");
        }
    }
}

/// Lane 1 was marked at 2 and not drained, lane 0 went once around its log, with marks at 4 to 70. The next timestamp is 72; after its drain lane 0 has no floor, and lane 1's is 2.
#[test]
fn the_lag_limit_stands_between_the_clock_and_the_slots() {
    let mut start = World::new(2, 2, 34);
    assert_eq!(both(&mut start, &Call::Format(vec![0, 5]), "start"), 0);
    for lane in [1].into_iter().chain([0; 34]) {
        assert_eq!(both(&mut start, &Call::Mark(lane), "start"), 0);
    }
    let with = |max_lag: u64, clock: u64, call: Call| {
        let mut world = start.clone();
        (world.record[0], world.record[LAG_WORD]) = (clock, max_lag);
        both(&mut world, &call, "lag limit")
    };
    let log = |lane: usize| Call::Log(lane, vec![1, 0, 0, 7]);
    let nothing = || Call::Log(0, vec![5, 0, 0, 1, 1, 0, 0, 7]);
    assert_eq!((with(68, 70, log(0)), with(70, 70, log(0))), (15, 9));
    assert_eq!(with(2, u64::MAX - 1, log(0)), 8);
    assert_eq!((with(2, 70, log(2)), with(2, 70, Call::Log(0, vec![1]))), (3, 5));
    // what settles a lane takes a timestamp as well, and one slot
    let settle = |lane: usize| Call::Log(lane, vec![]);
    assert_eq!((with(68, 70, settle(0)), with(70, 70, settle(0)), with(2, u64::MAX - 1, settle(0)), with(2, u64::MAX - 1, settle(2))), (15, 9, 8, 3));
    assert_eq!((with(2, 70, settle(1)), with(2, 72, settle(1))), (0, 15));
    // neither where nothing is written, nor for Mark; and lane 1's own drain leaves lane 0's floor, 70
    assert_eq!((with(2, 70, nothing()), with(2, 70, Call::Mark(0)), with(2, 70, Call::Mark(1)), with(2, 70, Call::Drain(1))), (0, 9, 0, 0));
    assert_eq!((with(2, 70, log(1)), with(2, 72, log(1))), (0, 15));
    // a clock that was moved: far above the floor, and with a timestamp at the end of the range
    assert_eq!((with(1 << 32, 1 << 32, log(0)), with(1 << 32, (1 << 32) + 2, log(0)), with(1 << 32, u64::MAX - 3, log(0))), (9, 15, 15));
    // without a floor the limit does not bind
    assert_eq!(both(&mut start, &Call::Drain(1), "drained"), 0);
    start.record[LAG_WORD] = 2;
    assert_eq!(both(&mut start, &log(0), "drained"), 0);
}

/// Lane 0 holds a transaction logged at 2, its floor, and lane 1 was marked three times. Only a Log meets the limit, and not that of a lane that holds a transaction.
#[test]
fn the_lag_limit_stops_no_commit() {
    let mut start = World::new(2, 2, 34);
    assert_eq!(both(&mut start, &Call::Format(vec![0, 5]), "start"), 0);
    let set = vec![1, 0, 0, 7];
    for call in [Call::Log(0, set.clone()), Call::Mark(1), Call::Mark(1), Call::Mark(1)] {
        assert_eq!(both(&mut start, &call, "start"), 0);
    }
    start.record[LAG_WORD] = 6;
    let number = |call: Call| both(&mut start.clone(), &call, "lag limit");
    assert_eq!((number(Call::Log(1, set.clone())), number(Call::Log(0, set.clone()))), (15, 6));
    assert_eq!((number(Call::Log(1, vec![])), number(Call::Log(0, vec![]))), (15, 6));
    assert_eq!((number(Call::Redo(0)), number(Call::Validate(0, set.clone())), number(Call::Mark(0)), number(Call::Drain(0))), (0, 0, 0, 0));
    start.record[LAG_WORD] = 8;
    assert_eq!(both(&mut start.clone(), &Call::Log(1, vec![]), "at the limit"), 0);
    assert_eq!(both(&mut start, &Call::Log(1, set), "at the limit"), 0);
}

/// A floor above the next timestamp, which only a damaged log gives: the difference is below zero, and not above the limit.
#[test]
fn a_floor_above_the_clock_does_not_bind() {
    let mut world = World::new(2, 2, 34);
    assert_eq!(both(&mut world, &Call::Format(vec![0, 0]), "start"), 0);
    world.record[LAG_WORD] = 2;
    // slots 10 and 11 of lane 0: an entry, and the timestamp 1,000 that closes it
    world.cache[23..27].copy_from_slice(&[9, 1, 32_777, 1_001]);
    assert_eq!(both(&mut world.clone(), &Call::Log(0, vec![]), "a floor of 1,000"), 0);
    assert_eq!(both(&mut world, &Call::Log(0, vec![1, 0, 0, 7]), "a floor of 1,000"), 0);
    assert_eq!((world.record[0], world.record[8], world.record[9]), (2, 1, 1_000));
}

// ---- Long transactions ----

/// SETs of the words from 0 on and round again to 100, 101 and so on.
fn sets(words: usize, count: u64) -> Vec<u64> {
    (0..count).flat_map(|number| [1, number % words as u64, 0, 100 + number]).collect()
}

/// An entry for each of so many instructions, and a timestamp for each sixteen begun.
fn slots_counted(instructions: u64) -> usize {
    (instructions + instructions.div_ceil(16)) as usize
}

/// A new store, its data words 0.
fn formatted(words: usize, lanes: usize, slots: usize) -> World {
    let mut world = World::new(words, lanes, slots);
    assert_eq!(both(&mut world, &Call::Format(vec![0; words]), "start"), 0);
    world
}

/// Of each length, from each slot on: every step, and then a recovery. The pairs stay in the record when the lock is free.
#[test]
fn long_transactions_of_each_length() {
    for (words, slots) in [(1, 34), (3, 85), (16, 86), (100, 256)] {
        let mut world = formatted(words, 2, slots);
        for count in (1..=64).filter(|&count| slots_counted(count) <= slots - 17) {
            let place = format!("W {words}, N {slots}, {count} writes");
            assert_eq!(both(&mut world, &Call::Lock(1, sets(words, count)), &place), 0);
            let stamp = world.record[0];
            let parts = count.div_ceil(16);
            for part in 1..=parts {
                let written = count.min(16 * part);
                assert_eq!(both(&mut world, &Call::Continue(1), &place), 0);
                assert_eq!(world.answer, [count - 16 * (part - 1), stamp, 0, 0], "{place}");
                assert_eq!(both(&mut world, &Call::Continue(1), &place), 0);
                assert_eq!(world.answer, [count - written, stamp, 0, 0], "{place}");
            }
            assert_eq!(both(&mut world, &Call::Continue(1), &place), 7);
            assert_eq!((world.record[0], world.record[1], &world.record[LOCK_WORD..LOCK_PAIRS]), (stamp, stamp, &[0; 6][..]), "{place}");
            let kept = &world.record[LOCK_PAIRS + 2 * count as usize - 2..];
            assert!(kept[..2] == [(count - 1) % words as u64, 99 + count] && kept[2..].iter().all(|&word| word == 0), "{place}");
            let mut cut = world.clone();
            assert_eq!(both(&mut cut, &Call::RecoverRead(usize::MAX), &place), 0);
            assert!(cut.record[LOCK_WORD..].iter().all(|&word| word == 0), "{place}");
            // ends the floor, so that the next one finds room
            assert_eq!(both(&mut world, &Call::Mark(1), &place), 0);
            assert_eq!(both(&mut world, &Call::Drain(1), &place), 0);
        }
    }
}

/// Lock: 1 2 3 5 6 11 12 8 15 9, the last three not where it writes nothing; Continue: 1 2 3 7 11; and where 11 stands in the other steps.
#[test]
fn refusals_under_the_lock() {
    const SPENT: u64 = u64::MAX - 1;
    let mut start = formatted(2, 3, 34);
    assert_eq!(both(&mut start, &Call::Log(1, sets(2, 1)), "start"), 0);
    for _ in 0..33 {
        assert_eq!(both(&mut start, &Call::Mark(0), "start"), 0);
    }
    // lane 1 holds a transaction, logged at 2, its floor; lane 0 has one slot left, and the clock is 68
    let mut locked = start.clone();
    assert_eq!(both(&mut locked, &Call::Lock(2, sets(2, 16)), "lock"), 0);
    let number = |world: &World, clock: u64, max_lag: u64, call: Call| {
        let mut world = world.clone();
        (world.record[0], world.record[LAG_WORD]) = (clock.max(world.record[0]), max_lag);
        both(&mut world, &call, "refusals")
    };
    let lock = |lane: usize, count: u64| Call::Lock(lane, sets(2, count));
    let nothing = |lane: usize, count: usize| Call::Lock(lane, [&[5, 0, 0, 15][..], &sets(2, 15)].concat().repeat(count));
    for (clock, max_lag) in [(0, GREATEST_LAG), (SPENT, 2)] {
        for (call, expected) in [
            (lock(3, 0), 3),
            (lock(0, 0), 5),
            (lock(0, 65), 5),
            (lock(1, 65), 5),
            (Call::Lock(0, vec![1, 0, 0]), 5),
            (Call::Lock(0, vec![4, 0, 0, 7]), 5),
            (Call::Lock(0, [&[5, 0, 0, 16][..], &sets(2, 20)].concat()), 5),
            (lock(1, 64), 6),
            (lock(1, 1), 6),
        ] {
            assert_eq!((number(&start, clock, max_lag, call.clone()), number(&locked, clock, max_lag, call.clone())), (expected, expected), "{call:?}");
        }
        for call in
            [lock(0, 1), lock(2, 1), lock(0, 64), lock(2, 17), nothing(0, 1), nothing(0, 4), Call::Log(0, sets(2, 1)), Call::Log(2, vec![]), Call::Mark(0)]
        {
            assert_eq!(number(&locked, clock, max_lag, call.clone()), 11, "{call:?}");
        }
        for call in [Call::Mark(1), Call::Mark(2), Call::Redo(1), Call::Validate(1, sets(2, 1)), Call::Log(2, sets(2, 1)), Call::Continue(0), Call::Continue(1)]
        {
            assert_eq!(number(&locked, clock, max_lag, call.clone()), 11, "{call:?}");
        }
        for (call, expected) in [
            (Call::Redo(0), 7),
            (Call::Redo(2), 7),
            (Call::Validate(2, sets(2, 1)), 7),
            (Call::Validate(1, vec![]), 5),
            (Call::Log(1, sets(2, 1)), 6),
            (Call::Log(1, vec![]), 6),
            (Call::Mark(3), 3),
            (Call::Continue(3), 3),
            // these go on
            (Call::Continue(2), 0),
            (Call::Drain(0), 0),
            (Call::Drain(1), 0),
            (Call::Drain(2), 0),
            (Call::WriteBack(3), 0),
        ] {
            assert_eq!(number(&locked, clock, max_lag, call.clone()), expected, "{call:?}");
        }
        // 17 slots of 34 can be counted: 16 instructions and a timestamp
        assert_eq!((number(&start, clock, max_lag, lock(2, 17)), number(&start, clock, max_lag, nothing(0, 2))), (12, 12));
        assert_eq!((number(&start, clock, max_lag, nothing(0, 1)), number(&start, clock, max_lag, Call::Continue(0))), (0, 7));
    }
    // lane 1's floor is 2, and the next timestamp 70
    assert_eq!((number(&start, SPENT, 2, lock(2, 16)), number(&start, SPENT, 2, lock(0, 1))), (8, 8));
    assert_eq!((number(&start, 0, 66, lock(0, 1)), number(&start, 0, 66, lock(2, 16))), (15, 15));
    assert_eq!((number(&start, 0, 68, lock(0, 1)), number(&start, 0, 68, lock(2, 16))), (9, 0));
    let mut bad = locked.clone();
    bad.record[LOCK_WORD + 1] = 3;
    for call in
        [lock(3, 1), Call::Continue(3), Call::Continue(2), Call::Drain(0), Call::Log(3, vec![]), Call::Redo(3), Call::Validate(3, vec![]), Call::Mark(3)]
    {
        assert_eq!(number(&bad, 0, GREATEST_LAG, call.clone()), 2, "{call:?}");
        bad.flags.push(0);
        assert_eq!(number(&bad, 0, GREATEST_LAG, call.clone()), 1, "{call:?}");
        bad.flags.pop();
    }
}

/// How many slots a Lock counts: the instructions, those passed over too, and one for each sixteen begun. No more than N - 17, and none of them may hit.
#[test]
fn slots_counted_for_the_lock() {
    for slots in (34..=90).chain([255, 256]) {
        let start = formatted(1, 1, slots);
        for count in 1..=64 {
            let expected = if slots_counted(count) > slots - 17 { 12 } else { 0 };
            assert_eq!(both(&mut start.clone(), &Call::Lock(0, sets(1, count)), "slots"), expected, "{count} writes, N {slots}");
        }
    }
    // lane 1 keeps its floor at 2; lane 0 goes on by marks, and is left so many slots
    for left in 0..90 {
        let mut world = formatted(1, 2, 90);
        world.cache[1] = 1;
        assert_eq!(both(&mut world, &Call::Mark(1), "start"), 0);
        for _ in 0..90 - left {
            assert_eq!(both(&mut world, &Call::Mark(0), "start"), 0);
        }
        for count in [1, 2, 15, 16, 17, 31, 32, 33, 47, 48, 49, 63, 64] {
            let expected = if slots_counted(count) > left { 9 } else { 0 };
            assert_eq!(both(&mut world.clone(), &Call::Lock(0, sets(1, count)), "slots"), expected, "{count} writes, {left} slots left");
            // a SKIP of nothing, as word 0 is not 0, counts as an instruction
            let skips = [&[5, 0, 0, 1][..], &sets(1, count - 1)].concat();
            let expected = if count == 1 { 5 } else { expected };
            assert_eq!(both(&mut world.clone(), &Call::Lock(0, skips), "slots"), expected, "{count} instructions, {left} slots left");
        }
    }
}

/// The lock's fields in a record, in range and not.
#[test]
fn locks_in_range() {
    let start = formatted(3, 2, 100);
    let number = |lock: [u64; 6], change: &dyn Fn(&mut World)| {
        let mut world = start.clone();
        world.record[0] = 40;
        world.record[LOCK_WORD..LOCK_PAIRS].copy_from_slice(&lock);
        change(&mut world);
        both(&mut world, &Call::Continue(0), "a lock")
    };
    let as_it_is = |_: &mut World| {};
    for count in [0, 1, 2, 15, 16, 17, 31, 32, 33, 47, 48, 49, 63, 64, 65, 80u64] {
        for written in 0..=66u64 {
            let near = |number: u64| number.saturating_sub(1)..=number + 1;
            for logged in near(written).chain(near(written + 16)).chain(near(count)).chain([0, 16, 64]) {
                let good = (1..=64).contains(&count) && written % 16 == 0 && written < count && (logged == written || logged == count.min(written + 16));
                assert_eq!(
                    number([1, 0, 40, count, logged, written], &as_it_is),
                    if good { 0 } else { 2 },
                    "{count} pairs, {logged} logged, {written} written"
                );
            }
        }
    }
    for (lock, expected) in [
        ([1, 1, 40, 1, 0, 0], 11),
        ([u64::MAX, 0, 40, 1, 0, 0], 0),
        ([1, 2, 40, 1, 0, 0], 2),
        ([1, 1 << 32, 40, 1, 0, 0], 2),
        ([1, 0, 0, 1, 0, 0], 0),
        ([1, 0, 39, 1, 0, 0], 2),
        ([1, 0, 42, 1, 0, 0], 2),
        ([1, 0, 40, u64::MAX, 0, 0], 2),
        ([1, 0, 40, 64, u64::MAX, 0], 2),
        ([1, 0, 40, 64, 0, u64::MAX - 15], 2),
        ([1, 0, 40, u64::MAX, 0, u64::MAX - 15], 2),
        // free: the other words and the pairs say nothing
        ([0, 9, 41, 99, 99, 99], 7),
    ] {
        assert_eq!(number(lock, &as_it_is), expected, "{lock:?}");
    }
    let lock = [1, 0, 40, 20, 0, 0];
    assert_eq!(number(lock, &|world| world.record[LOCK_PAIRS + 38] = 2), 0);
    assert_eq!(number(lock, &|world| world.record[LOCK_PAIRS + 38] = 3), 2);
    assert_eq!(number(lock, &|world| world.record[LOCK_PAIRS + 40] = 3), 0);
    assert_eq!(number([0; 6], &|world| world.record[LOCK_PAIRS..].fill(u64::MAX)), 7);
    // the lock's lane must be idle: lane 0 is made to hold a transaction, and then lane 1
    let logged = |lane: usize| move |world: &mut World| world.record[2 + 40 * lane..][..4].copy_from_slice(&[1, 0, 1, 2]);
    assert_eq!((number(lock, &logged(0)), number(lock, &logged(1))), (2, 0));
}

/// Any pairs, also those that no run gives: the entries have running old values, a word written twice in one part and in two.
#[test]
fn parts_of_any_pairs() {
    for seed in 1..=300 {
        let random = &mut Random::new(5_000 + seed);
        let words = random.pick(&[1, 2, 5, 20]);
        let mut world = formatted(words, 2, random.pick(&[34, 35, 40, 90, 256]));
        for word in &mut world.cache[1..=words] {
            *word = random.word();
        }
        let count = 1 + random.below(64);
        (world.record[0], world.record[1]) = (100, 10);
        let (next, wrap) = (random.below(world.slots as u64), random.below(2));
        (world.record[2 + 4], world.record[2 + 5]) = (next, wrap);
        world.record[LOCK_WORD..LOCK_PAIRS].copy_from_slice(&[1, 0, 2 * random.below(51), count, 0, 0]);
        for pair in world.record[LOCK_PAIRS..].chunks_exact_mut(2) {
            pair.copy_from_slice(&[random.below(words as u64), random.word()]);
        }
        for step in 0..2 * count.div_ceil(16) {
            let place = format!("seed {seed}, step {step}");
            assert_eq!(both(&mut world, &Call::Continue(0), &place), 0);
            let mut cut = world.clone();
            assert_eq!(both(&mut cut, &Call::RecoverRead(usize::MAX), &place), 0);
        }
        assert_eq!(world.record[LOCK_WORD], 0, "seed {seed}");
    }
}

/// Logs of equal timestamps on two laps, one from some slot on the next one: which sequence is a lane's latest, for its floor and for the boundary, and the order in which they are
/// undone, by the words that are left after each number of stores.
#[test]
fn equal_timestamps_on_two_laps() {
    let (mut with_boundary, mut without) = (0, 0);
    for seed in 1..=400 {
        let random = &mut Random::new(7_000 + seed);
        let sizes = Sizes { words: random.pick(&[1, 2, 7]), lanes: 1 + random.index(3), slots: random.pick(&[34, 35, 50]) };
        let mut image = images::image(sizes, images::Logs::Empty);
        let stamps = 1 + random.below(3);
        for log in image[1 + sizes.words..1 + sizes.words + 2 * sizes.lanes * sizes.slots].chunks_exact_mut(2 * sizes.slots) {
            let turn = random.index(sizes.slots + 1);
            let first_wrap = random.below(2);
            // sequences of 0 to 3 entries, from the slot of the turn on and round again
            let mut left = 0;
            let mut entries = 0;
            for offset in 0..sizes.slots {
                let slot = (turn + offset) % sizes.slots;
                let wrap = if slot < turn { first_wrap } else { 1 - first_wrap };
                let words = if left > 0 {
                    left -= 1;
                    [8 * (random.below(sizes.words as u64) + 1) + 2 * random.below(2) + wrap, random.word() & !1 | wrap]
                } else {
                    let closes = entries;
                    entries = random.below(4);
                    left = entries;
                    [8 * (4096 + closes) + wrap, 2 * (1 + random.below(stamps)) + wrap]
                };
                log[2 * slot..2 * slot + 2].copy_from_slice(&words);
            }
        }
        for lane in 0..sizes.lanes {
            let mut world = formatted(sizes.words, sizes.lanes, sizes.slots);
            world.cache.clone_from(&image);
            world.record[0] = 100;
            assert_eq!(both(&mut world, &Call::Drain(lane), &format!("seed {seed}")), 0);
        }
        let stores = plain::recovery_read_stores(&image).len() - 2 * sizes.lanes * sizes.slots;
        for limit in (0..=stores).chain([usize::MAX]) {
            let mut world = cut(sizes, image.clone());
            assert_eq!(both(&mut world, &Call::RecoverRead(limit), &format!("seed {seed}, limit {limit}")), 0);
            match world.answer[0] {
                1 => without += 1,
                2 => with_boundary += 1,
                _ => {}
            }
        }
    }
    println!("finished with a boundary: {with_boundary}, without: {without}");
    assert!(with_boundary > 100 && without > 20);
}
