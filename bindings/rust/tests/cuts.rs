//! Power cuts after every call of pseudo-random runs, with write-backs in between: recovery leaves the commits below its boundary, no boundary is below the least floor, and a
//! commit that is safe, as `include/vandzulge.h` and `Store::is_safe` say, or ever was, stays; a lane that is settled and drained keeps what was committed before; and no boundary is further below a
//! timestamp that Log or Lock took than the lag limit. Now one lane is at work, now another; the others rest, marked and drained or not. And cuts inside the steps of a long
//! transaction: all of it stands or none.

mod common;

use common::states::small_lag;
use common::{Call, Random, World, LIBRARY};
use vandzulge::raw::{LAG_WORD, LOCK_WORD};
use vandzulge::{Buffers, Sizes, Store};

const WORDS: usize = 3;
const LANES: usize = 3;

/// A new store: every other seed has logs that take long transactions of 64 instructions, and the others such as take no more than 16.
fn new_world(seed: u64) -> World {
    World::new(WORDS, LANES, if seed % 2 == 0 { 85 } else { 34 })
}

/// A store, and what a caller knows of it: the words at its start, the timestamp that Log or Lock took last, the timestamp and transaction of each commit since the start, and of each
/// lane the transaction handed to Log or Lock last and the timestamp of its last mark.
#[derive(Clone)]
struct Run {
    world: World,
    start: Vec<u64>,
    last_log: Option<u64>,
    commits: Vec<(u64, Vec<u64>)>,
    held: [Vec<u64>; LANES],
    marks: [Option<u64>; LANES],
    /// of each lane, when it was settled last, if it was not drained since
    settled: [Option<u64>; LANES],
    /// and when it was settled before that, with a drain since: the timestamp, and whether the drain was a step's
    kept_below: [Option<(u64, bool)>; LANES],
    /// the greatest timestamp of a commit that was safe at some time
    safe: u64,
}

/// One to three SETs and ADDs.
fn txn(random: &mut Random) -> Vec<u64> {
    instructions(random, WORDS, 3)
}

/// One to so many.
fn instructions(random: &mut Random, words: usize, most: u64) -> Vec<u64> {
    let mut txn = Vec::new();
    for _ in 0..1 + random.below(most) {
        let [a, b] = [0; 2].map(|_| random.below(words as u64));
        txn.extend(if random.one_in(2) { [1, a, 0, random.word()] } else { [3, a, b, random.word()] });
    }
    txn
}

fn run_on(words: &mut [u64], txn: &[u64]) {
    for instruction in txn.chunks_exact(4) {
        let (a, b, k) = (instruction[1] as usize, instruction[2] as usize, instruction[3]);
        words[a] = if instruction[0] == 1 { k } else { words[b].wrapping_add(k) };
    }
}

impl Run {
    fn at_start(world: World, start: Vec<u64>) -> Run {
        Run {
            world,
            start,
            last_log: None,
            commits: vec![],
            held: Default::default(),
            marks: [None; LANES],
            settled: [None; LANES],
            kept_below: [None; LANES],
            safe: 0,
        }
    }

    fn floor(&self, lane: usize) -> Option<u64> {
        let words = &self.world.record[2 + 40 * lane..];
        (words[6] != 0).then_some(words[7])
    }

    /// What the store itself says of each commit: whether it is safe.
    fn told_safe(&mut self) -> Vec<bool> {
        let World { words, lanes, slots, cache, nvm, flags, record, .. } = &mut self.world;
        let sizes = Sizes::new(*words, *lanes, *slots).expect("in range");
        let mut buffers = Buffers { cache, nvm, flags, record: record.as_mut_slice().try_into().expect("a record") };
        let store = Store::attach(&mut buffers, sizes).expect("a store that has started");
        self.commits.iter().map(|commit| store.is_safe(commit.0)).collect()
    }

    /// Makes a call and notes what it answered. Its number.
    fn make(&mut self, call: Call) -> u64 {
        let number = self.world.call(&LIBRARY, &call);
        if number != 0 {
            return number;
        }
        let [first, stamp] = [self.world.answer[0], self.world.answer[1]];
        if let Some(lane) = call.drains() {
            if let Some(stamp) = self.settled[lane].take() {
                self.kept_below[lane] = Some((stamp, !matches!(call, Call::Drain(_))));
            }
        }
        match call {
            Call::Log(lane, txn) => {
                if txn.is_empty() {
                    self.settled[lane] = Some(stamp);
                    self.marks[lane] = Some(stamp);
                }
                self.held[lane] = txn;
                self.last_log = Some(stamp);
            }
            Call::Lock(lane, txn) => {
                self.held[lane] = txn;
                self.last_log = Some(stamp);
            }
            Call::Continue(lane) if first == 0 => self.commits.push((stamp, self.held[lane].clone())),
            Call::Redo(lane) | Call::Validate(lane, _) if first != 0 => self.commits.push((stamp, self.held[lane].clone())),
            Call::Mark(lane) => self.marks[lane] = Some(stamp),
            _ => {}
        }
        number
    }

    /// Makes a call that suits the lane, or the next step of a long transaction; it may be refused with 9 or 15, or with 11 while the lock is held. Call and number.
    fn step(&mut self, random: &mut Random, lane: usize) -> (Call, u64) {
        let logged = self.world.record[2 + 40 * lane] != 0;
        let locked = self.world.record[LOCK_WORD] != 0;
        let most = if random.one_in(4) || self.world.slots < 85 { 16 } else { 64 };
        let call = match random.below(8) {
            _ if locked && !random.one_in(3) => Call::Continue(self.world.record[LOCK_WORD + 1] as usize),
            4 if !logged => Call::Lock(lane, instructions(random, WORDS, most)),
            0 | 1 => Call::Drain(lane),
            2 => Call::Mark(lane),
            3 | 4 if logged => Call::Redo(lane),
            _ if logged => Call::Validate(lane, self.held[lane].clone()),
            3 if random.one_in(2) => Call::Log(lane, vec![]),
            _ => Call::Log(lane, txn(random)),
        };
        let number = self.make(call.clone());
        (call, number)
    }

    /// What `include/vandzulge.h` says to do where a Log is refused with 15. The Log's number then, which is not 15.
    fn make_room(&mut self, lane: usize, log: &Call) -> u64 {
        assert_eq!(self.make(Call::Drain(lane)), 0);
        for _ in 0..LANES {
            let least = (0..LANES).filter(|&lane| self.floor(lane).is_some()).min_by_key(|&lane| self.floor(lane)).expect("a floor");
            assert_eq!((self.make(Call::Mark(least)), self.make(Call::Drain(least))), (0, 0));
            match self.make(log.clone()) {
                15 => {}
                number => return number,
            }
        }
        panic!("15 after {LANES} marks");
    }

    fn write_back(&mut self, random: &mut Random) {
        for _ in 0..random.below(30) {
            let word = random.index(self.world.cache.len());
            assert_eq!(self.world.call(&LIBRARY, &Call::WriteBack(word)), 0);
        }
    }

    /// The store that recovery makes where power is cut now, and its boundary.
    fn cut(&self) -> (World, Option<u64>) {
        let mut cut = self.world.clone();
        lose(&mut cut);
        assert_eq!(cut.call(&LIBRARY, &Call::RecoverRead(usize::MAX)), 0);
        let boundary = (cut.answer[0] == 2).then_some(cut.answer[1]);
        (cut, boundary)
    }

    /// The words of the start with the commits below a boundary, all where there is none.
    fn words_below(&self, boundary: Option<u64>) -> Vec<u64> {
        let mut words = self.start.clone();
        for (_, txn) in self.commits.iter().filter(|commit| boundary.is_none_or(|boundary| commit.0 < boundary)) {
            run_on(&mut words, txn);
        }
        words
    }
}

/// Power is cut: cache, flags and record are lost.
fn lose(world: &mut World) {
    world.cache.fill(3);
    world.flags.fill(0xff);
    world.record.fill(5);
}

#[test]
fn no_cut_loses_a_safe_commit() {
    let (mut lost, mut safe_beside_rest, mut long_lost, mut long_safe) = (0, 0, 0, 0);
    for seed in 1..=60 {
        let random = &mut Random::new(seed);
        let start = [0; WORDS].map(|_| random.word()).to_vec();
        let mut run = Run::at_start(new_world(seed), start.clone());
        assert_eq!(run.world.call(&LIBRARY, &Call::Format(start)), 0);
        let mut lane = 0;
        for step in 0..200 {
            if random.one_in(12) {
                lane = random.index(LANES);
            }
            run.step(random, lane);
            run.write_back(random);
            let (cut, boundary) = run.cut();
            let floors: Vec<u64> = (0..LANES).filter_map(|lane| run.floor(lane)).collect();
            let place = format!("seed {seed}, step {step}, boundary {boundary:?}, floors {floors:?}");
            assert!(boundary.is_none_or(|boundary| floors.iter().any(|&floor| floor <= boundary)), "{place}");
            let told_safe = run.told_safe();
            for ((stamp, txn), told_safe) in run.commits.iter().zip(told_safe) {
                let stays = boundary.is_none_or(|boundary| *stamp < boundary);
                let safe = floors.iter().all(|floor| floor > stamp);
                assert_eq!(told_safe, safe, "the commit at {stamp}: {place}");
                if safe {
                    run.safe = run.safe.max(*stamp);
                }
                assert!(stays || *stamp > run.safe, "the commit at {stamp} is lost: {place}");
                // a lane that had a mark below the commit, and has no floor
                let rests = (0..LANES).any(|lane| run.floor(lane).is_none() && run.marks[lane].is_some_and(|mark| mark < *stamp));
                lost += !stays as u64;
                safe_beside_rest += (safe && rests) as u64;
                // more than a logged transaction has here
                let long = txn.len() > 12;
                long_lost += (long && !stays) as u64;
                long_safe += (long && safe) as u64;
            }
            let words = run.words_below(boundary);
            assert_eq!(cut.nvm[1..=WORDS], words, "{place}");
            if random.one_in(60) {
                run = Run::at_start(cut, words);
            }
        }
    }
    println!("lost at a cut: {lost}, long ones {long_lost}; safe, beside a lane at rest: {safe_beside_rest}; long ones safe: {long_safe}");
    assert!(lost > 1_000 && safe_beside_rest > 1_000 && long_lost > 1_000 && long_safe > 1_000);
}

/// From its next drain on, that of a later step too, a settled lane keeps each commit made before, whichever lane's, at every cut at which each other lane that has a floor has it
/// above the commit.
#[test]
fn a_settled_lane_keeps_what_was_committed() {
    // for each lane, cuts at which it kept a commit so: all, those with a boundary, and those where the drain was a step's
    let mut kept = [0; 3];
    let (mut lost_without_drain, mut lost_by_other_floors) = (0, 0);
    for seed in 1..=60 {
        let random = &mut Random::new(2_000 + seed);
        let mut run = Run::at_start(new_world(seed), vec![0; WORDS]);
        assert_eq!(run.make(Call::Format(vec![0; WORDS])), 0);
        let mut lane = 0;
        for step in 0..200 {
            if random.one_in(8) {
                lane = random.index(LANES);
            }
            run.step(random, lane);
            run.write_back(random);
            let (cut, boundary) = run.cut();
            for lane in 0..LANES {
                let others_above = |commit: u64| (0..LANES).all(|other| other == lane || run.floor(other).is_none_or(|floor| floor > commit));
                let lost = |commit: u64| boundary.is_some_and(|boundary| commit >= boundary);
                let before = |stamp: u64| run.commits.iter().map(|commit| commit.0).filter(move |&commit| commit < stamp);
                if let Some((stamp, by_step)) = run.kept_below[lane] {
                    let (above, not_above): (Vec<u64>, Vec<u64>) = before(stamp).partition(|&commit| others_above(commit));
                    let place = format!("seed {seed}, step {step}, lane {lane} settled at {stamp}, boundary {boundary:?}");
                    assert!(!above.iter().any(|&commit| lost(commit)), "of {above:?} one is lost: {place}");
                    if !above.is_empty() {
                        kept[0] += 1;
                        kept[1] += boundary.is_some() as u64;
                        kept[2] += by_step as u64;
                    }
                    lost_by_other_floors += not_above.iter().any(|&commit| lost(commit)) as u64;
                }
                if let Some(stamp) = run.settled[lane] {
                    lost_without_drain += before(stamp).any(|commit| others_above(commit) && lost(commit)) as u64;
                }
            }
            if random.one_in(60) {
                let words = cut.nvm[1..=WORDS].to_vec();
                run = Run::at_start(cut, words);
            }
        }
    }
    println!("kept: {kept:?}; lost without the drain: {lost_without_drain}, with another lane's floor not above: {lost_by_other_floors}");
    assert!(kept.iter().all(|&cuts| cuts > 500) && lost_without_drain > 100 && lost_by_other_floors > 100);
}

/// After a Log that took a timestamp, as long as no start comes after it: at most limit / 2 of the commits before it are lost, and at most one a lane of those since then.
#[test]
fn no_cut_goes_further_back_than_the_lag_limit() {
    let (mut refused, mut refused_to_settle, mut marked_and_taken, mut bounded, mut bounded_by_settling, mut at_the_limit, mut lost) = (0, 0, 0, 0, 0, 0, 0);
    for seed in 1..=60 {
        let random = &mut Random::new(1_000 + seed);
        let world = World { max_lag: small_lag(random), ..new_world(seed) };
        let mut run = Run::at_start(world, vec![0; WORDS]);
        assert_eq!(run.make(Call::Format(vec![0; WORDS])), 0);
        let mut lane = 0;
        for step in 0..300 {
            if random.one_in(8) {
                lane = random.index(LANES);
            }
            if let (log, 15) = run.step(random, lane) {
                refused += 1;
                refused_to_settle += matches!(&log, Call::Log(_, txn) if txn.is_empty()) as u64;
                if random.one_in(2) {
                    marked_and_taken += (run.make_room(lane, &log) == 0) as u64;
                }
            }
            run.write_back(random);
            let max_lag = run.world.record[LAG_WORD];
            // a recovery may be given another limit
            run.world.max_lag = small_lag(random);
            let (cut, boundary) = run.cut();
            assert_eq!(cut.record[LAG_WORD], run.world.max_lag);
            if let (Some(stamp), Some(boundary)) = (run.last_log, boundary) {
                let place = format!("seed {seed}, step {step}, lag limit {max_lag}, Log at {stamp}, boundary {boundary}");
                assert!(stamp <= boundary + max_lag, "{place}");
                bounded += 1;
                // a Log whose timestamp is a mark's
                bounded_by_settling += run.marks.contains(&Some(stamp)) as u64;
                at_the_limit += (stamp == boundary + max_lag) as u64;
                let (before, since): (Vec<u64>, Vec<u64>) =
                    run.commits.iter().map(|commit| commit.0).filter(|&commit| commit >= boundary).partition(|&commit| commit < stamp);
                assert!(before.len() as u64 <= max_lag / 2 && since.len() <= LANES, "lost {before:?} and {since:?}: {place}");
                lost += before.len() + since.len();
            }
            if random.one_in(60) {
                let words = cut.nvm[1..=WORDS].to_vec();
                run = Run::at_start(cut, words);
            }
        }
    }
    println!("Logs refused with 15: {refused}, to settle {refused_to_settle}, taken after marks: {marked_and_taken}; commits lost: {lost}");
    println!("cuts with a boundary: {bounded}, where the last Log settled a lane {bounded_by_settling}, at the limit {at_the_limit}");
    assert!(refused > 500 && refused_to_settle > 50 && marked_and_taken > 300 && lost > 1_000);
    assert!(bounded > 5_000 && bounded_by_settling > 500 && at_the_limit > 100);
}

/// A transaction of 40 writes under the lock: power is cut before each of its calls, between two words of the drain that the call begins with, behind that drain, and after the
/// last call, with any words written back; recovery is cut short up to three times. What then stands is the words at the boundary: all of the transaction or none, and none before its
/// last call.
#[test]
fn a_long_transaction_is_all_or_none() {
    // of the cuts before each call, and behind the last one, how often it stands; and those that found some of its writes in the memory, and none after recovery
    let (mut stands, mut cuts, mut taken_back) = ([0; 10], [0; 10], 0);
    for seed in 1..=60 {
        let random = &mut Random::new(3_000 + seed);
        let slots = random.pick(&[60, 61, 64, 85, 100]);
        let start = [0; WORDS].map(|_| random.word()).to_vec();
        let mut run = Run::at_start(World::new(WORDS, LANES, slots), start.clone());
        assert_eq!(run.make(Call::Format(start)), 0);
        // what was there before, so that the parts lie anywhere in the log; other lanes may hold transactions
        for _ in 0..random.below(60) {
            let lane = random.index(LANES);
            run.step(random, lane);
        }
        while run.world.record[LOCK_WORD] != 0 {
            let lane = run.world.record[LOCK_WORD + 1] as usize;
            assert_eq!(run.make(Call::Continue(lane)), 0);
        }
        let lane = random.index(LANES);
        let txn: Vec<u64> = (0..40).flat_map(|_| instructions(random, WORDS, 1)).collect();
        // lanes at rest, all of them or as many as it takes for the log to have room
        let all_at_rest = random.one_in(2);
        for marked in (0..LANES).map(|number| (lane + number) % LANES) {
            assert_eq!((run.make(Call::Mark(marked)), run.make(Call::Drain(marked))), (0, 0), "seed {seed}");
            if !all_at_rest && run.clone().make(Call::Lock(lane, txn.clone())) == 0 {
                break;
            }
        }
        let mut calls = vec![Some(Call::Lock(lane, txn.clone()))];
        calls.extend(vec![Some(Call::Continue(lane)); 6]);
        // and what comes after it
        calls.extend([Some(Call::Mark(lane)), Some(Call::Drain(lane)), None]);
        for (number, call) in calls.into_iter().enumerate() {
            for _ in 0..12 {
                let mut cut = run.clone();
                cut.write_back(random);
                // any of the words that the call's drain copies, or all of them
                let all = random.one_in(3);
                for word in 0..cut.world.nvm.len() {
                    if cut.world.flags[word] >> lane & 1 == 1 && (all || random.one_in(2)) {
                        cut.world.nvm[word] = cut.world.cache[word];
                    }
                }
                let found = cut.world.nvm[1..=WORDS].to_vec();
                // the boundary is that of the cells which the first recovery finds
                let boundary = cut.cut().1;
                lose(&mut cut.world);
                for _ in 0..random.below(4) {
                    let most = random.pick(&[60, 2 * LANES * slots]);
                    let limit = random.index(most);
                    assert_eq!(cut.world.call(&LIBRARY, &Call::RecoverRead(limit)), 0);
                    if cut.world.answer[0] != 0 {
                        break;
                    }
                    lose(&mut cut.world);
                }
                assert_eq!(cut.world.call(&LIBRARY, &Call::RecoverRead(usize::MAX)), 0);
                let words = cut.words_below(boundary);
                let place = format!("seed {seed}, before call {number}, boundary {boundary:?}, slots {slots}");
                assert_eq!(cut.world.nvm[1..=WORDS], words, "{place}");
                cuts[number] += 1;
                let committed = run.commits.iter().find(|commit| commit.1 == txn).map(|commit| commit.0);
                let stays = committed.is_some_and(|stamp| boundary.is_none_or(|boundary| stamp < boundary));
                stands[number] += stays as u64;
                taken_back += (number >= 2 && !stays && found != words) as u64;
            }
            assert_eq!(call.map_or(0, |call| run.make(call)), 0, "seed {seed}, call {number}");
        }
    }
    println!("it stands, of {cuts:?} cuts: {stands:?}; of the others, writes taken back: {taken_back}");
    // before the Mark the commit is at the boundary or above it, and then its lane gives none as soon as the mark is in the memory
    assert!(stands[..8] == [0; 8] && stands[8] > 50 && stands[9] > stands[8] && stands[9] < cuts[9] && taken_back > 500);
}
