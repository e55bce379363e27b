//! Pseudo-random states and calls, valid and damaged, and the outcomes that calls on them have.

use super::{images, trailers, Call, Random, Sizes, World};
use std::collections::BTreeMap;
use vandzulge::raw::{LAG_WORD, LOCK_WORD};
use vandzulge::GREATEST_LAG;

/// Lag limits out of range.
pub const BAD_LAGS: [u64; 10] = [0, 1, 3, 41, GREATEST_LAG - 1, GREATEST_LAG + 1, GREATEST_LAG + 2, 1 << 63, u64::MAX - 1, u64::MAX];

/// The first word of the lock's pairs in the record.
pub const LOCK_PAIRS: usize = LOCK_WORD + 6;

/// A small lag limit, which Log meets often.
pub fn small_lag(random: &mut Random) -> u64 {
    2 + 2 * random.below(20)
}

/// A lag limit in range.
fn good_lag(random: &mut Random) -> u64 {
    match random.below(4) {
        0 => small_lag(random),
        1 => 2 + 2 * random.below(GREATEST_LAG / 2),
        _ => GREATEST_LAG,
    }
}

fn sizes(random: &mut Random) -> Sizes {
    let words = random.pick(&[1, 2, 3, 5, 16, 17, 100, 256, 1023, 1024]);
    let lanes = 1 + random.index(8);
    let slots = random.pick(&[34, 35, 36, 37, 40, 51, 64, 255, 256]);
    Sizes { words, lanes, slots }
}

/// A transaction of up to 16 instructions, well formed but for a POKE now and then, which is withdrawn.
fn txn(random: &mut Random, words: usize) -> Vec<u64> {
    let longest = if random.one_in(3) { 16 } else { 4 };
    let length = 1 + random.below(longest);
    instructions(random, words, length, 40)
}

/// The same of up to 64 instructions.
fn long_txn(random: &mut Random, words: usize) -> Vec<u64> {
    let length = match random.below(4) {
        0 => random.pick(&[1, 2, 15, 16, 17, 31, 32, 33, 48, 49, 63, 64]),
        1 => 1 + random.below(16),
        _ => 1 + random.below(64),
    };
    instructions(random, words, length, 400)
}

/// A long transaction that passes over all that it would write, if some data word is 0.
fn without_writes(random: &mut Random, world: &World) -> Vec<u64> {
    let zero = world.cache.iter().skip(1).take(world.words).position(|&word| word == 0).unwrap_or(0) as u64;
    let passed = 1 + random.below(15);
    let skip = [&[5, 0, zero, passed][..], &[1, 0, 0, 7].repeat(passed as usize)].concat();
    skip.repeat(1 + random.index(4))
}

/// So many instructions, of which one in so many is a POKE.
fn instructions(random: &mut Random, words: usize, length: u64, pokes: u64) -> Vec<u64> {
    let words = words as u64;
    let mut txn = Vec::new();
    for following in (0..length).rev() {
        let (a, b) = (random.below(words), random.below(words));
        let k = if random.one_in(2) { random.below(4) } else { random.word() };
        txn.extend(match random.below(39) {
            _ if random.one_in(pokes) => [4, 0, b, k],
            0..=7 => [2, a, b, 0],
            8..=15 => [3, a, b, k],
            16..=23 if following > 0 => [5, 0, b, 1 + random.below(following.min(15))],
            _ => [1, a, 0, k],
        });
    }
    txn
}

/// A word that is wrong in many places.
fn odd_word(random: &mut Random, clock: u64) -> u64 {
    let near = random.below(9).wrapping_sub(4);
    match random.below(7) {
        0 => random.below(20),
        1 => clock.wrapping_add(near),
        2 => u64::MAX - random.below(5),
        3 => 1 << random.below(64),
        4 => random.below(2048),
        5 => random.pick(&[33, 34, 35, 255, 256, 257, 1023, 1024, 1025]),
        _ => random.word(),
    }
}

/// Two slot words: mostly an entry or a timestamp, now and then anything.
fn slot(random: &mut Random, words: usize, clock: u64) -> [u64; 2] {
    let wrap = random.below(2);
    match random.below(8) {
        0 => [0, 0],
        1 => [random.word(), random.word()],
        2 => [random.below(40_000), clock.wrapping_add(random.below(3))],
        3 | 4 => [8 * (4096 + random.below(4)) + wrap, (random.below(clock / 2 + 2) * 2) | wrap],
        5 => [8 * (4096 + random.below(19)) + wrap, clock.wrapping_add(random.below(6)) & !1 | wrap],
        _ => [8 * (random.below(words as u64 + 1) + 1) + 2 * random.below(2) + wrap, random.word() & !1 | wrap],
    }
}

/// A lane's log of complete sequences, some of them spoilt: with one wrap bit, or another one from some slot on; with timestamps in no order, or few different ones.
fn fill_log(random: &mut Random, log: &mut [u64], words: usize, clock: u64) {
    let mut wrap = random.below(2);
    let turn = if random.one_in(2) { random.index(log.len()) } else { log.len() };
    let stamps = if random.one_in(3) { 1 + random.below(3) } else { clock / 2 + 1 };
    let mut entries = 0;
    let mut length = random.below(17);
    for (slot_number, pair) in log.chunks_exact_mut(2).enumerate() {
        if slot_number == turn {
            wrap = 1 - wrap;
        }
        let words = if random.one_in(60) {
            slot(random, words, clock)
        } else if entries < length {
            entries += 1;
            [8 * (random.below(words as u64) + 1) + 2 * random.below(2) + wrap, random.word() & !1 | wrap]
        } else {
            let closes = entries;
            entries = 0;
            length = if random.one_in(3) { random.below(17) } else { random.below(3) };
            [8 * (4096 + closes) + wrap, (random.below(stamps) * 2 + 2) | wrap]
        };
        pair.copy_from_slice(&words);
    }
}

fn damage(random: &mut Random, world: &mut World) {
    let clock = world.record.first().copied().unwrap_or(0);
    let length = world.cache.len().min(world.nvm.len()).min(world.flags.len());
    let logs = 1 + world.words;
    match random.below(15) {
        0 => {
            let at = random.index(length);
            world.cache[at] = odd_word(random, clock);
        }
        1 => {
            let at = random.index(length);
            world.nvm[at] = odd_word(random, clock);
        }
        2 => {
            for flag in &mut world.flags {
                *flag = random.word() as u8;
            }
        }
        3 => {
            for _ in 0..1 + random.below(20) {
                let at = logs + 2 * random.index(world.lanes * world.slots);
                let words = slot(random, world.words, clock);
                let image = if random.one_in(2) { &mut world.cache } else { &mut world.nvm };
                image[at..at + 2].copy_from_slice(&words);
            }
        }
        4 => {
            let start = logs + 2 * world.slots * random.index(world.lanes);
            let image = if random.one_in(2) { &mut world.cache } else { &mut world.nvm };
            fill_log(random, &mut image[start..start + 2 * world.slots], world.words, clock.min(400));
        }
        5 => {
            let at = random.index(world.record.len());
            world.record[at] = odd_word(random, clock);
        }
        6 => {
            // a field before the pairs of a lane
            let at = 2 + 40 * random.index(8) + random.index(8);
            world.record[at] = odd_word(random, clock);
        }
        7 => {
            world.cache[0] = random.below(clock.clamp(1, 100));
            world.nvm[0] = random.below(clock.clamp(1, 100)) & !1 | random.one_in(8) as u64;
        }
        8 => {
            // a clock near its end
            world.record[0] = u64::MAX - 1 - 2 * random.below(4);
        }
        9 => lock_held(random, world, clock),
        10 => {
            // a field of the lock, or what would be one
            let at = LOCK_WORD + random.index(6);
            world.record[at] = odd_word(random, clock);
        }
        11 | 12 => world.record[LOCK_WORD] = 0,
        13 => world.record[LAG_WORD] = if random.one_in(3) { random.pick(&BAD_LAGS) } else { good_lag(random) },
        _ => {
            let words = last_words(random, world);
            let image = if random.one_in(4) { &mut world.cache } else { &mut world.nvm };
            image[length - 4..].copy_from_slice(&words);
        }
    }
}

/// A record whose lock is held, mostly in range.
fn lock_held(random: &mut Random, world: &mut World, clock: u64) {
    let lane = if random.one_in(10) { world.lanes as u64 } else { random.below(world.lanes as u64) };
    let count = if random.one_in(10) { random.pick(&[0, 65, u64::MAX]) } else { 1 + random.below(64) };
    let written = if random.one_in(8) { random.below(70) } else { 16 * random.below(count.clamp(1, 64).div_ceil(16)) };
    let part_end = count.min(written + 16);
    let logged = match random.below(10) {
        0 => random.below(70),
        1..=4 => written,
        _ => part_end,
    };
    let stamp = if random.one_in(8) { odd_word(random, clock) } else { random.below(clock / 2 + 1) * 2 };
    world.record[LOCK_WORD..LOCK_PAIRS].copy_from_slice(&[random.pick(&[1, 1, 2, u64::MAX]), lane, stamp, count, logged, written]);
    for (number, pair) in world.record[LOCK_PAIRS..].chunks_exact_mut(2).enumerate() {
        let good = (number as u64) < count && !random.one_in(400);
        pair.copy_from_slice(&[if good { random.below(world.words as u64) } else { odd_word(random, clock) }, random.word()]);
    }
    if random.one_in(4) {
        return;
    }
    if let Some(phase) = world.record[..LAG_WORD].get_mut(2 + 40 * lane as usize) {
        *phase = 0;
    }
}

/// The trailer of the present sizes, one of other sizes that agrees with the length, or a bad one.
fn last_words(random: &mut Random, world: &World) -> [u64; 4] {
    let sizes = Sizes { words: world.words, lanes: world.lanes, slots: world.slots };
    let right = images::trailer(sizes);
    match random.below(4) {
        0 | 1 => right,
        2 => trailers::fitting(random, world.nvm.len()).unwrap_or(right),
        _ => random.pick(&trailers::bad(sizes)),
    }
}

/// A lane that is mostly in use, and a call that mostly suits it; one transaction in thirty is empty.
fn call(random: &mut Random, world: &World, held: &[Vec<u64>; 8]) -> Call {
    let lane = if random.one_in(40) { odd_word(random, 8) as usize } else { random.index(world.lanes) };
    let logged = lane < 8 && world.record.get(2 + 40 * lane).is_some_and(|&phase| phase != 0);
    let locked = world.record.get(LOCK_WORD).is_some_and(|&held| held != 0);
    if locked && !random.one_in(3) {
        // mostly the next step of the long transaction
        return Call::Continue(match random.below(30) {
            0 => odd_word(random, 8) as usize,
            1 | 2 => lane,
            _ => world.record[LOCK_WORD + 1] as usize,
        });
    }
    let long = random.one_in(5);
    let mut words = match long {
        true if random.one_in(15) => without_writes(random, world),
        true => long_txn(random, world.words),
        false => txn(random, world.words),
    };
    if random.one_in(30) {
        let at = random.index(words.len());
        words[at] = odd_word(random, 10);
    }
    if random.one_in(60) {
        words.resize(random.index(if long { 280 } else { 70 }), 1);
    }
    if random.one_in(30) {
        words.clear();
    }
    if long {
        return if random.one_in(20) { Call::Continue(lane) } else { Call::Lock(lane, words) };
    }
    match random.below(16) {
        0 => Call::WriteBack(if random.one_in(10) { odd_word(random, 0) as usize } else { random.index(world.cache.len().max(1)) }),
        1 => Call::Drain(lane),
        2 => Call::Mark(lane),
        3 => Call::Redo(lane),
        4 => Call::Log(lane, words),
        5 => Call::Validate(lane, words),
        6 if random.one_in(4) => {
            let stores = 2 * world.lanes * world.slots + 1;
            let limit = match random.below(4) {
                0 => random.index(stores + 40),
                1 => stores,
                2 => random.index(60),
                _ => usize::MAX,
            };
            // each length has its own recovery, and now and then gets the other one
            if world.is_former() != random.one_in(8) {
                Call::Recover(limit)
            } else {
                Call::RecoverRead(limit)
            }
        }
        7 if random.one_in(10) => {
            let length = if random.one_in(5) { random.index(40) } else { world.words };
            Call::Format((0..length).map(|_| random.word()).collect())
        }
        number if logged && number % 3 == 0 => Call::Redo(lane),
        number if logged && number % 3 == 1 => Call::Validate(lane, if lane < 8 { held[lane].clone() } else { words }),
        _ if logged && random.one_in(2) => Call::Mark(lane),
        _ => Call::Log(lane, words),
    }
}

/// A slice of a length that few calls take or none, a mixture of both lengths, or sizes out of range.
fn misfit(random: &mut Random, world: &mut World) {
    let length = world.nvm.len();
    match random.below(11) {
        0 => world.cache.push(0),
        1 => world.nvm.truncate(length - 1),
        2 => world.flags.clear(),
        3 => world.record.resize(random.pick(&[0, 1, 2, 322, 323, 324, 400, 456, 458]), 0),
        4 => world.answer.resize(random.pick(&[0, 1, 3, 5]), 7),
        5 => world.words = random.pick(&[0, 1025, usize::MAX, usize::MAX / 8]),
        6 => world.lanes = random.pick(&[0, 9, usize::MAX, usize::MAX / 68]),
        7 => world.slots = random.pick(&[0, 33, 257, usize::MAX, usize::MAX / 2 + 1]),
        8 => world.resize(random.pick(&[0, 1, 2, 3, 4, length - 1, length + 1, length + 4, length - 4])),
        _ => {
            let other = if world.is_former() { length + 4 } else { length - 4 };
            // one or two of the three
            let which = 1 + random.below(6);
            if which & 1 != 0 {
                world.cache.resize(other, 0);
            }
            if which & 2 != 0 {
                world.nvm.resize(other, 0);
            }
            if which & 4 != 0 {
                world.flags.resize(other, 0);
            }
        }
    }
}

/// A store's life from Format on: calls that mostly suit it, where `damaged` on states that no call made. Each start is given a lag limit of its own, now and then one out of range.
/// Each call is handed to `make`, which makes it, may look at it, and returns its number.
fn walk(seed: u64, steps: u64, damaged: bool, former: bool, make: &mut impl FnMut(&mut World, &Call, &str) -> u64) {
    let random = &mut Random::new(seed);
    let Sizes { words, lanes, slots } = sizes(random);
    let mut world = World { max_lag: good_lag(random), ..World::new(words, lanes, slots) };
    let start = (0..words).map(|_| if random.one_in(2) { random.below(5) } else { random.word() }).collect();
    make(&mut world, &Call::Format(start), "format");
    if former {
        // without its trailer a formatted image is one of the former length
        world.resize(world.nvm.len() - 4);
    }
    let mut held: [Vec<u64>; 8] = Default::default();
    for step in 0..steps {
        let place = format!("seed {seed}, step {step}");
        if damaged && random.one_in(4) {
            damage(random, &mut world);
        }
        let call = call(random, &world, &held);
        world.max_lag = if random.one_in(6) { random.pick(&BAD_LAGS) } else { good_lag(random) };
        if random.one_in(50) {
            let mut other = world.clone();
            misfit(random, &mut other);
            make(&mut other, if random.one_in(3) { &Call::RecoverRead(usize::MAX) } else { &call }, &place);
        }
        let number = make(&mut world, &call, &place);
        if let (Call::Log(lane, _) | Call::Lock(lane, _), 9) = (&call, number) {
            // the slots that are left take marks
            for _ in 0..20 {
                if make(&mut world, &Call::Mark(*lane), &place) != 0 {
                    break;
                }
            }
        }
        if let (Call::Log(lane, _) | Call::Mark(lane), 9 | 11) = (&call, number) {
            // a Log of no words wants one slot: there may be room for it where the Log had none, and none where a Mark had none
            make(&mut world, &Call::Log(*lane, vec![]), &place);
        }
        if let Call::Log(lane, txn) = call {
            if lane < 8 {
                held[lane] = txn;
            }
        }
    }
}

/// All outcomes that a call can have on images of either length.
const EITHER: [&str; 66] = [
    "write-back",
    "write-back refused 4",
    "drain",
    "drain refused 2",
    "drain refused 3",
    "log",
    "log without writes",
    "log refused 2",
    "log refused 3",
    "log refused 5",
    "log refused 6",
    "log refused 11",
    "log refused 8",
    "log refused 15",
    "log refused 9",
    "log of no words settled",
    "log of no words refused 2",
    "log of no words refused 3",
    "log of no words refused 6",
    "log of no words refused 11",
    "log of no words refused 8",
    "log of no words refused 15",
    "log of no words refused 9",
    "redo",
    "redo stale",
    "redo refused 2",
    "redo refused 3",
    "redo refused 7",
    "redo refused 11",
    "redo refused 8",
    "validate",
    "validate changed",
    "validate refused 2",
    "validate refused 3",
    "validate refused 5",
    "validate of no words refused 5",
    "validate refused 7",
    "validate refused 11",
    "validate refused 8",
    "mark",
    "mark dropped",
    "mark refused 2",
    "mark refused 3",
    "mark refused 11",
    "mark refused 8",
    "mark refused 9",
    "lock",
    "lock without writes",
    "lock refused 2",
    "lock refused 3",
    "lock refused 5",
    "lock of no words refused 5",
    "lock refused 6",
    "lock refused 11",
    "lock refused 12",
    "lock refused 8",
    "lock refused 15",
    "lock refused 9",
    "continue logged",
    "continue written",
    "continue committed",
    "continue refused 2",
    "continue refused 3",
    "continue refused 7",
    "continue refused 11",
    "recover-read refused 14",
];

/// Those on images of the new length alone, on such of the former length, and those of slices that do not fit.
const ONE_LENGTH: [&str; 24] = [
    "format",
    "format refused 16",
    "recover-read",
    "recover-read none",
    "recover-read cut",
    "recover-read refused 16",
    "recover-read refused 10",
    "recover, former length",
    "recover none, former length",
    "recover cut, former length",
    "recover refused 16, former length",
    "recover refused 10, former length",
    "format refused 1",
    "write-back refused 1",
    "drain refused 1",
    "log refused 1",
    "log of no words refused 1",
    "redo refused 1",
    "validate refused 1",
    "mark refused 1",
    "lock refused 1",
    "continue refused 1",
    "recover refused 1",
    "recover-read refused 1",
];

/// An image of the former length whose last words look like a trailer.
const MISTAKEN: [&str; 5] = [
    "recover-read, former length",
    "recover-read none, former length",
    "recover-read cut, former length",
    "recover-read refused 16, former length",
    "recover-read refused 10, former length",
];

fn outcome(world: &World, call: &Call, number: u64) -> String {
    let name = match call {
        Call::Format(_) => "format",
        Call::WriteBack(_) => "write-back",
        Call::Drain(_) => "drain",
        Call::Log(_, txn) if txn.is_empty() => "log of no words",
        Call::Log(..) => "log",
        Call::Redo(_) => "redo",
        Call::Validate(_, txn) if txn.is_empty() && number == 5 => "validate of no words",
        Call::Validate(..) => "validate",
        Call::Mark(_) => "mark",
        Call::Lock(_, txn) if txn.is_empty() && number == 5 => "lock of no words",
        Call::Lock(..) => "lock",
        Call::Continue(_) => "continue",
        Call::Recover(_) => "recover",
        Call::RecoverRead(_) => "recover-read",
    };
    if number == 1 {
        return format!("{name} refused 1");
    }
    let length = if world.is_former() { ", former length" } else { "" };
    if number != 0 {
        return format!("{name} refused {number}{length}");
    }
    let kind = match (call, &world.answer[..]) {
        (Call::Log(..), [0, 0, ..]) => " without writes",
        (Call::Log(..), [0, ..]) => " settled",
        (Call::Redo(_), [0, ..]) => " stale",
        (Call::Validate(..), [0, ..]) => " changed",
        (Call::Mark(_), [1, ..]) => " dropped",
        (Call::Lock(..), [0, ..]) => " without writes",
        (Call::Continue(_), [0, ..]) => " committed",
        (Call::Continue(_), _) if world.record[LOCK_WORD + 4] > world.record[LOCK_WORD + 5] => " logged",
        (Call::Continue(_), _) => " written",
        (Call::Recover(_) | Call::RecoverRead(_), [0, ..]) => " cut",
        (Call::Recover(_) | Call::RecoverRead(_), [1, ..]) => " none",
        _ => "",
    };
    format!("{name}{kind}{length}")
}

/// How often each outcome was seen, by call and answer.
#[derive(Default)]
struct Seen(BTreeMap<String, u64>);

impl Seen {
    /// Every outcome that a call can have was seen this often, and no other.
    fn assert_all(&self, least: u64) {
        println!("{} calls: {:#?}", self.0.values().sum::<u64>(), self.0);
        let former = EITHER.map(|outcome| format!("{outcome}, former length"));
        let expected: Vec<&str> = EITHER.into_iter().chain(former.iter().map(String::as_str)).chain(ONE_LENGTH).collect();
        for outcome in &expected {
            assert!(self.0.get(*outcome).is_some_and(|&times| times >= least), "too few of: {outcome}");
        }
        for outcome in self.0.keys() {
            let outcome = outcome.as_str();
            assert!(expected.contains(&outcome) || MISTAKEN.contains(&outcome), "not expected: {outcome}");
        }
    }
}

/// Walks from so many seeds, over stores of both lengths, as calls leave them and damaged. `make` makes each call and returns its number; every outcome must come up `least` times.
pub fn every_outcome(seeds: u64, least: u64, mut make: impl FnMut(&mut World, &Call, &str) -> u64) {
    let mut seen = Seen::default();
    let mut counted = |world: &mut World, call: &Call, place: &str| {
        world.answer.fill(7);
        let number = make(world, call, place);
        *seen.0.entry(outcome(world, call, number)).or_default() += 1;
        number
    };
    for seed in 1..=seeds {
        let former = seed % 2 == 0;
        walk(seed, 200, false, former, &mut counted);
        walk(1_000_000 + seed, 200, true, !former, &mut counted);
    }
    seen.assert_all(least);
}
