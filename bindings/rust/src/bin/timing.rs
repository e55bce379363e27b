//! Times each call of the library beside the plain implementation, in one process, on the same words, and prints tables in Markdown.
//! All images have a trailer, and recovery is without sizes, but for the lines that say otherwise: those are of the same images in the former length.
//!
//! A round copies a prepared state some times, makes the call once on each copy, and takes the time of that; copying is not timed. The two implementations
//! take turns, and the first of a round is the second of the next. The number given is the median of all rounds. Time is the thread's own processor time, less
//! what reading it costs, so that other work on the machine disturbs it less. In the table of the greatest sizes against the small ones the two sizes take turns,
//! in place of the two implementations.

#[path = "../../tests/common/mod.rs"]
mod common;

use common::images::{self, Logs};
use common::{Call, Calls, Sizes, World, LIBRARY, PLAIN};
use std::hint::black_box;
use std::sync::OnceLock;
use std::time::{Duration, Instant};

/// How long a case is measured, in rounds and in time: it ends with whichever comes first, but not before the least number of rounds.
const LEAST_ROUNDS: usize = 41;
const MOST_ROUNDS: usize = 4_001;
const BUDGET: Duration = Duration::from_millis(300);
/// Bytes of states that a round works on: they should stay in the cache.
const ROUND_BYTES: usize = 192 * 1024;

/// The thread's processor time in nanoseconds, by the C library (Linux, as the store's library is).
fn now() -> f64 {
    #[repr(C)]
    struct Timespec {
        seconds: i64,
        nanoseconds: i64,
    }
    extern "C" {
        fn clock_gettime(clock: i32, time: *mut Timespec) -> i32;
    }
    const THREAD_TIME: i32 = 3;
    let mut time = Timespec { seconds: 0, nanoseconds: 0 };
    // SAFETY: `time` is a timespec of x86-64 Linux, and lives through the call.
    let failed = unsafe { clock_gettime(THREAD_TIME, &mut time) };
    assert_eq!(failed, 0, "clock_gettime");
    time.seconds as f64 * 1e9 + time.nanoseconds as f64
}

/// What it costs to read the time.
fn reading() -> f64 {
    static READING: OnceLock<f64> = OnceLock::new();
    *READING.get_or_init(|| {
        let times = (0..MOST_ROUNDS).map(|_| {
            let start = now();
            now() - start
        });
        median(times.collect())
    })
}

/// One line of the table.
struct Case {
    name: String,
    state: World,
    call: Call,
}

struct Times {
    library: f64,
    plain: f64,
}

fn copy(from: &World, to: &mut World) {
    to.cache.copy_from_slice(&from.cache);
    to.nvm.copy_from_slice(&from.nvm);
    to.flags.copy_from_slice(&from.flags);
    to.record.copy_from_slice(&from.record);
}

fn median(mut times: Vec<f64>) -> f64 {
    times.sort_by(f64::total_cmp);
    times[times.len() / 2]
}

fn copies(state: &World) -> usize {
    let bytes = 17 * state.cache.len() + 8 * state.record.len();
    (ROUND_BYTES / bytes).clamp(2, 32)
}

/// The time of one call in nanoseconds, over one round.
fn round(calls: &Calls, case: &Case, states: &mut [World]) -> f64 {
    for state in states.iter_mut() {
        copy(&case.state, state);
    }
    // a write-back can be made again and again, and is much shorter than reading the time
    let times = if matches!(case.call, Call::WriteBack(_)) { 32 } else { 1 };
    let start = now();
    for state in states.iter_mut() {
        for _ in 0..times {
            black_box(state.call(calls, black_box(&case.call)));
        }
    }
    (now() - start - reading()) / (times * states.len()) as f64
}

/// The medians of two rounds that take turns: `round(true)` is the one, `round(false)` the other.
fn in_turns(mut round: impl FnMut(bool) -> f64) -> (f64, f64) {
    let mut ones = Vec::new();
    let mut others = Vec::new();
    let start = Instant::now();
    while ones.len() < LEAST_ROUNDS || (ones.len() < MOST_ROUNDS && start.elapsed() < BUDGET) {
        if ones.len() % 2 == 0 {
            ones.push(round(true));
            others.push(round(false));
        } else {
            others.push(round(false));
            ones.push(round(true));
        }
    }
    (median(ones), median(others))
}

fn measure(case: &Case) -> Times {
    let mut states = vec![case.state.clone(); copies(&case.state)];
    let mut check = case.state.clone();
    let mut same = case.state.clone();
    assert_eq!(same.call(&LIBRARY, &case.call), check.call(&PLAIN, &case.call), "{}", case.name);
    assert!(same == check, "{}", case.name);
    let (library, plain) = in_turns(|one| round(if one { &LIBRARY } else { &PLAIN }, case, &mut states));
    Times { library, plain }
}

/// The time of a copy of the image's words.
fn measure_copy(state: &World) -> f64 {
    let mut states = vec![state.clone(); copies(state)];
    let mut times = Vec::new();
    for _ in 0..MOST_ROUNDS {
        let start = now();
        for state in states.iter_mut() {
            black_box(&mut state.nvm).copy_from_slice(black_box(&state.cache));
        }
        times.push((now() - start - reading()) / states.len() as f64);
    }
    median(times)
}

/// ADDs of 1 to the first `count` words, or as many as there are, over and over.
fn adds(sizes: Sizes, count: usize) -> Vec<u64> {
    (0..count).flat_map(|i| [3, (i % sizes.words) as u64, (i % sizes.words) as u64, 1]).collect()
}

fn taken(state: &mut World, call: Call) {
    let number = state.call(&PLAIN, &call);
    assert_eq!(number, 0, "{call:?}");
}

/// A store at work: every lane has gone around its log three times with transactions of 16 writes, and is idle and drained.
fn working(sizes: Sizes) -> World {
    let mut state = World::new(sizes.words, sizes.lanes, sizes.slots);
    taken(&mut state, Call::Format((0..sizes.words as u64).collect()));
    for turn in 0..3 * sizes.slots / 17 + 1 {
        for lane in 0..sizes.lanes {
            taken(&mut state, Call::Log(lane, adds(sizes, 16)));
            if turn % 2 == 0 {
                taken(&mut state, Call::Redo(lane));
            } else {
                taken(&mut state, Call::Validate(lane, adds(sizes, 16)));
            }
            taken(&mut state, Call::Drain(lane));
        }
    }
    state
}

fn with(state: &World, calls: &[Call]) -> World {
    let mut state = state.clone();
    for call in calls {
        taken(&mut state, call.clone());
    }
    state
}

/// Non-volatile memory with the given logs, after a power cut.
fn cut_with(sizes: Sizes, logs: Logs) -> World {
    let mut state = World::new(sizes.words, sizes.lanes, sizes.slots);
    state.nvm = images::image(sizes, logs);
    state
}

/// The same state in buffers of the former length.
fn former(mut state: World) -> World {
    state.resize(state.nvm.len() - 4);
    state
}

fn steps(sizes: Sizes) -> Vec<Case> {
    let idle = working(sizes);
    let lane = sizes.lanes - 1;
    let logged = with(&idle, &[Call::Log(lane, adds(sizes, 16))]);
    let drained = with(&logged, &[Call::Drain(lane)]);
    let mut all_flushed = idle.clone();
    all_flushed.flags.fill(0xff);
    let mut stale = drained.clone();
    stale.record[0] += 2;
    stale.record[1] = stale.record[0];
    let mut changed = drained.clone();
    changed.cache[1 + 15 % sizes.words] ^= 1 << 40;
    // no run of calls from Format leaves such a log
    let mut incomplete = idle.clone();
    incomplete.cache = images::image(sizes, Logs::Incomplete);
    // a long transaction of 64 writes, or of 16 where the log takes no more
    let fits = sizes.slots >= 64 + 4 + 17;
    let locked = with(&idle, &[Call::Lock(lane, adds(sizes, if fits { 64 } else { 16 }))]);
    let part_logged = with(&locked, &[Call::Continue(lane)]);
    let case = |name: &str, state: &World, call: Call| Case { name: name.to_string(), state: state.clone(), call };
    let mut cases = vec![
        case("Format", &idle, Call::Format((0..sizes.words as u64).collect())),
        case("write-back", &idle, Call::WriteBack(sizes.words)),
        case("Drain, nothing flushed", &idle, Call::Drain(lane)),
        case("Drain, after a Log of 16 writes", &logged, Call::Drain(lane)),
        case("Drain, every word flushed", &all_flushed, Call::Drain(lane)),
        case("Log, 16 writes", &idle, Call::Log(lane, adds(sizes, 16))),
        case("Log, 1 write", &idle, Call::Log(lane, adds(sizes, 1))),
        case("Log, no writes", &with_zero(&idle), Call::Log(lane, vec![5, 0, 0, 1, 1, 0, 0, 7])),
        case("Redo, 16 writes", &logged, Call::Redo(lane)),
        case("Redo, stale", &stale, Call::Redo(lane)),
        case("Validate, 16 writes", &logged, Call::Validate(lane, adds(sizes, 16))),
        case("Validate, changed in the last write", &changed, Call::Validate(lane, adds(sizes, 16))),
        case("Mark", &idle, Call::Mark(lane)),
        case("Log, settling", &idle, Call::Log(lane, vec![])),
        case("Log, refused with 6", &logged, Call::Log(lane, adds(sizes, 1))),
        case("Drain, every slot a timestamp, none complete", &incomplete, Call::Drain(lane)),
        case("Lock, 16 writes", &idle, Call::Lock(lane, adds(sizes, 16))),
        case("Continue, logs a part", &locked, Call::Continue(lane)),
        case("Continue, writes a part", &part_logged, Call::Continue(lane)),
    ];
    if fits {
        cases.push(case("Lock, 64 writes", &idle, Call::Lock(lane, adds(sizes, 64))));
    }
    cases
}

/// The state with data word 0 at 0.
fn with_zero(state: &World) -> World {
    let mut state = state.clone();
    state.cache[1] = 0;
    state
}

fn recoveries(sizes: Sizes) -> Vec<Case> {
    let case = |name: &str, state: World| Case { name: format!("recovery, {name}"), state, call: Call::RecoverRead(usize::MAX) };
    let mut cases = vec![case("a store at work", working(sizes))];
    for logs in images::ALL {
        let name = match logs {
            Logs::Empty => "empty logs",
            Logs::Marked => "every slot a mark",
            Logs::EqualMarks => "marks and one sequence, equal timestamps",
            Logs::MixedMarks => "marks and one sequence, mixed timestamps",
            Logs::Singles => "sequences of 1, mixed timestamps",
            Logs::EqualSequences => "sequences of 16, equal timestamps",
            Logs::MixedSequences => "sequences of 16, mixed timestamps",
            Logs::Incomplete => "every slot a timestamp, none complete",
            Logs::Torn => "every slot torn",
        };
        cases.push(case(name, cut_with(sizes, logs)));
    }
    for (name, state) in [("a store at work", working(sizes)), ("empty logs", cut_with(sizes, Logs::Empty))] {
        cases.push(Case { name: format!("recovery with sizes given, {name}"), state: former(state), call: Call::Recover(usize::MAX) });
    }
    cases
}

fn number(ns: f64) -> String {
    if ns < 100.0 {
        return format!("{ns:.1}");
    }
    let digits = format!("{ns:.0}");
    let mut grouped = String::new();
    for (i, digit) in digits.chars().enumerate() {
        if i > 0 && (digits.len() - i) % 3 == 0 {
            grouped.push(',');
        }
        grouped.push(digit);
    }
    grouped
}

fn table(title: &str, sizes: Sizes) {
    let Sizes { words, lanes, slots } = sizes;
    println!("\n### {title}: W {words}, T {lanes}, N {slots}\n");
    println!("| Call | library, ns | plain, ns | ratio |");
    println!("|---|---:|---:|---:|");
    println!("| copy of the image (memcpy) | | {} | |", number(measure_copy(&working(sizes))));
    for case in steps(sizes).iter().chain(&recoveries(sizes)) {
        let Times { library, plain } = measure(case);
        println!("| {} | {} | {} | {:.2} |", case.name, number(library), number(plain), library / plain);
    }
}

/// The library alone at two sizes, which take turns: each call on a lane that both have.
fn against(small: Sizes, great: Sizes) {
    let sizes = |Sizes { words, lanes, slots }: Sizes| format!("W {words}, T {lanes}, N {slots}");
    println!("\n### Greatest sizes against small: calls on a lane, library\n");
    println!("| Call | {}, ns | {}, ns | ratio |", sizes(great), sizes(small));
    println!("|---|---:|---:|---:|");
    let great_cases = steps(great);
    for low in steps(small).iter().filter(|case| case.call.drains().is_some()) {
        let Some(high) = great_cases.iter().find(|case| case.name == low.name) else { continue };
        let mut low_states = vec![low.state.clone(); copies(&low.state)];
        let mut high_states = vec![high.state.clone(); copies(&high.state)];
        let (high_time, low_time) = in_turns(|one| if one { round(&LIBRARY, high, &mut high_states) } else { round(&LIBRARY, low, &mut low_states) });
        println!("| {} | {} | {} | {:.2} |", low.name, number(high_time), number(low_time), high_time / low_time);
    }
}

/// The calls of the growth tables.
fn growing(sizes: Sizes) -> Vec<Case> {
    let shown = ["Format", "Drain, after a Log of 16 writes", "Log, 16 writes", "Redo, 16 writes", "Validate, 16 writes", "Mark", "Log, settling"];
    let shown_recoveries = ["recovery, empty logs", "recovery, marks and one sequence, equal timestamps", "recovery, sequences of 16, equal timestamps"];
    let steps = steps(sizes).into_iter().filter(|case| shown.contains(&case.name.as_str()));
    let recoveries = recoveries(sizes).into_iter().filter(|case| shown_recoveries.contains(&case.name.as_str()));
    steps.chain(recoveries).collect()
}

fn growth(letter: &str, rest: &str, sizes: &[(usize, Sizes)]) {
    println!("\n### Growth with {letter}, at {rest}: library (plain), ns\n");
    let heads: Vec<String> = sizes.iter().map(|(value, _)| format!("{letter} {value}")).collect();
    println!("| Call | {} |", heads.join(" | "));
    println!("|---|{}", "---:|".repeat(sizes.len()));
    let cases: Vec<Vec<Case>> = sizes.iter().map(|(_, sizes)| growing(*sizes)).collect();
    for line in 0..cases[0].len() {
        let mut cells = String::new();
        for column in &cases {
            let Times { library, plain } = measure(&column[line]);
            cells += &format!(" {} ({}) |", number(library), number(plain));
        }
        println!("| {} |{cells}", cases[0][line].name);
    }
}

fn main() {
    let small = Sizes { words: 16, lanes: 1, slots: 34 };
    let greatest = Sizes { words: 1024, lanes: 8, slots: 256 };
    table("Small", small);
    table("Middle", Sizes { words: 256, lanes: 4, slots: 64 });
    table("Greatest", greatest);
    against(small, greatest);
    let by = |values: &[usize], sizes: fn(usize) -> Sizes| -> Vec<(usize, Sizes)> { values.iter().map(|&value| (value, sizes(value))).collect() };
    growth("W", "T 4, N 64", &by(&[16, 64, 256, 1024], |words| Sizes { words, lanes: 4, slots: 64 }));
    growth("T", "W 256, N 64", &by(&[1, 2, 4, 8], |lanes| Sizes { words: 256, lanes, slots: 64 }));
    growth("N", "W 256, T 4", &by(&[34, 64, 128, 256], |slots| Sizes { words: 256, lanes: 4, slots }));
}
