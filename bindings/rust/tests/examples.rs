//! The examples, in C and in Rust: killed fifty times at random times and started again, each on what the other left, and on damaged files. x86-64 Linux.
#![cfg(all(target_arch = "x86_64", target_os = "linux"))]

mod common;

use common::Random;
use std::fs;
use std::io::Read;
use std::ops::RangeInclusive;
use std::path::{Path, PathBuf};
use std::process::{Command, Output, Stdio};
use std::sync::OnceLock;
use std::thread::{sleep, spawn};
use std::time::{Duration, SystemTime, UNIX_EPOCH};
use vandzulge::{Buffers, Instruction, Sizes, Store, GREATEST_LAG, RECORD_WORDS};

const KILLS: usize = 50;
/// The longest time from a start to the kill.
const LONGEST_MICROS: u64 = 30_000;

// ---- The programs ----

fn root() -> PathBuf {
    Path::new(env!("CARGO_MANIFEST_DIR")).join("../..")
}

/// Compiled once, with all warnings as errors.
fn c_example() -> &'static Path {
    static PROGRAM: OnceLock<PathBuf> = OnceLock::new();
    PROGRAM.get_or_init(|| {
        let program = Path::new(env!("CARGO_TARGET_TMPDIR")).join("counters-c");
        let compiled = Command::new("cc")
            .args(["-std=c99", "-O2", "-Wall", "-Wextra", "-pedantic", "-Werror", "-I"])
            .arg(root().join("include"))
            .arg(root().join("examples/counters.c"))
            .arg(Path::new(env!("VANDZULGE_LIB_DIR")).join("libvandzulge.a"))
            .arg("-o")
            .arg(&program)
            .output()
            .expect("cc");
        assert!(compiled.status.success(), "{}", String::from_utf8_lossy(&compiled.stderr));
        program
    })
}

/// As cargo built it, beside the folder that this test's own program is in.
fn rust_example() -> &'static Path {
    static PROGRAM: OnceLock<PathBuf> = OnceLock::new();
    PROGRAM.get_or_init(|| {
        let own = std::env::current_exe().expect("this test's program");
        let program = own.parent().and_then(Path::parent).expect("the profile's folder").join("examples/counters");
        assert!(
            program.is_file(),
            "{} is missing: `cargo test` builds it, and so does `cargo build --example counters`, but not `cargo test --test`",
            program.display()
        );
        program
    })
}

/// Both, by name.
fn examples() -> [(&'static str, &'static Path); 2] {
    [("c", c_example()), ("rust", rust_example())]
}

/// A name for a store's file of this test, at which there is none yet.
fn fresh(name: &str) -> PathBuf {
    let path = Path::new(env!("CARGO_TARGET_TMPDIR")).join(format!("{name}.counters"));
    for old in [path.clone(), path.with_extension("counters.new")] {
        if old.exists() {
            fs::remove_file(old).expect("the file of an earlier run");
        }
    }
    path
}

fn run(program: &Path, file: &Path, count: &str) -> Output {
    Command::new(program).arg(file).arg(count).output().expect("the example")
}

/// The lines of a run that ends by itself, without a complaint.
fn lines(program: &Path, file: &Path, count: u64) -> Vec<String> {
    let Output { status, stdout, stderr } = run(program, file, &count.to_string());
    assert!(status.success() && stderr.is_empty(), "{program:?}: {status}, {}", String::from_utf8_lossy(&stderr));
    String::from_utf8(stdout).expect("text").lines().map(String::from).collect()
}

/// What a run of so many transactions prints after its first line, with the counters at `first` when it starts.
fn counted(first: u64, count: u64) -> Vec<String> {
    [format!("counters {first} {first}")].into_iter().chain((first + 1..=first + count).map(|number| format!("kept {number}"))).collect()
}

// ---- Kills ----

/// Starts the program, kills it after this time, and returns the whole lines that it printed.
fn killed_after(program: &Path, file: &Path, time: Duration) -> Vec<String> {
    let mut child = Command::new(program).arg(file).stdout(Stdio::piped()).spawn().expect("the example");
    let mut stdout = child.stdout.take().expect("its output");
    // read as it comes: a full pipe would hold the program up
    let reader = spawn(move || {
        let mut text = String::new();
        stdout.read_to_string(&mut text).map(|_| text)
    });
    sleep(time);
    assert_eq!(child.try_wait().expect("its state"), None, "{program:?} ended by itself");
    child.kill().expect("kill");
    child.wait().expect("its end");
    let text = reader.join().expect("the reader").expect("text");
    // a line that is not ended is dropped
    text.split_inclusive('\n').filter_map(|line| line.strip_suffix('\n')).map(String::from).collect()
}

/// The number behind a word that a line begins with.
fn number(line: &str, word: &str) -> Option<u64> {
    line.strip_prefix(word)?.parse().ok()
}

/// The counters of a line `counters A B`, which must be equal.
fn counter(line: &str) -> u64 {
    let (first, second) = line.strip_prefix("counters ").and_then(|numbers| numbers.split_once(' ')).unwrap_or_else(|| panic!("{line}"));
    assert_eq!(first, second);
    first.parse().unwrap_or_else(|_| panic!("{line}"))
}

/// What fifty kills showed.
#[derive(Debug, Default)]
struct Seen {
    /// kills before the first line, between it and the first commit, and after a commit
    silent: usize,
    started: usize,
    working: usize,
    /// starts at which something was undone, and those at which the counters were further than at the last one
    undone: usize,
    progress: usize,
    kept: usize,
}

/// Kills the program again and again. After each kill the counters stand at the last `kept N`, or one further: the transaction at work may be settled and not yet told.
fn kill_and_restart(name: &str, program: &Path) {
    let seed = SystemTime::now().duration_since(UNIX_EPOCH).expect("a clock").as_nanos() as u64;
    println!("{name}: seed {seed}");
    let random = &mut Random::new(seed);
    let file = fresh(&format!("killed-{name}"));
    let mut seen = Seen::default();
    // what the counters may be at the next start
    let mut may_be: RangeInclusive<u64> = 0..=0;
    let mut last_start = 0;
    for kill in 0..KILLS {
        let was_there = file.exists();
        // every other one early, so as to hit Format and recovery
        let most = if random.one_in(2) { LONGEST_MICROS } else { LONGEST_MICROS / 10 };
        let time = Duration::from_micros(random.below(most));
        let printed = killed_after(program, &file, time);
        let place = format!("{name}, kill {kill} after {time:?}, seed {seed}, counters in {may_be:?}: {:?}", printed.get(..3).unwrap_or(&printed));
        let [start, counters, kept @ ..] = &printed[..] else {
            // it commits nothing before it has told the counters, but the lines of one write may be lost together
            assert!(printed.iter().all(|line| (line == "formatted") != was_there), "{place}");
            may_be = *may_be.start()..=may_be.end() + 1;
            seen.silent += 1;
            continue;
        };
        assert!(if was_there { start.starts_with("recovered: ") } else { start == "formatted" }, "{place}");
        let found = counter(counters);
        assert!(may_be.contains(&found), "{place}");
        for (line, expected) in kept.iter().zip(found + 1..) {
            assert_eq!(number(line, "kept "), Some(expected), "{place}");
        }
        let last = found + kept.len() as u64;
        may_be = last..=last + 1;
        seen.started += kept.is_empty() as usize;
        seen.working += !kept.is_empty() as usize;
        seen.undone += start.starts_with("recovered: boundary ") as usize;
        seen.progress += (found > last_start) as usize;
        seen.kept += kept.len();
        last_start = found;
    }
    println!("{name}: {seen:?}");
    assert!(seen.kept > 0 && seen.progress > 0, "{name}: no kill came after a commit: {seen:?}");
    let printed = lines(program, &file, 3);
    let found = counter(&printed[1]);
    assert!(may_be.contains(&found), "{name}: counters at {found}, not in {may_be:?}");
    assert_eq!(printed[1..], counted(found, 3));
    assert_eq!(lines(program, &file, 0)[1..], counted(found + 3, 0));
}

#[test]
fn the_c_example_survives_fifty_kills() {
    kill_and_restart("c", c_example());
}

#[test]
fn the_rust_example_survives_fifty_kills() {
    kill_and_restart("rust", rust_example());
}

/// Kills at a start on no file, a little later each time: there is still no file, or a whole store.
#[test]
fn no_kill_leaves_half_a_store() {
    for (name, program) in examples() {
        let (mut none, mut half) = (0, 0);
        for micros in (0..2_000).step_by(50) {
            let file = fresh(&format!("new-{name}"));
            let printed = killed_after(program, &file, Duration::from_micros(micros));
            if !file.exists() {
                assert!(printed.is_empty(), "{name}: {printed:?}");
                none += 1;
                half += file.with_extension("counters.new").exists() as usize;
                continue;
            }
            let last = printed.last().and_then(|line| number(line, "kept ")).unwrap_or(0);
            let again = lines(program, &file, 0);
            assert!(again[0].starts_with("recovered: ") && (last..=last + 1).contains(&counter(&again[1])), "{name}, kept {last}: {again:?}");
        }
        println!("{name}: kills that left no file: {none}, {half} of them in the middle of Format");
    }
}

// ---- Files ----

/// The file of a store of these two words, on which these calls were made: what a kill after the last of them leaves.
fn left_by(path: &Path, first_words: [u64; 2], calls: impl FnOnce(&mut Store)) {
    let sizes = Sizes::new(16, 1, 64).expect("in range");
    let length = sizes.image_words();
    let (mut cache, mut nvm, mut flags, mut record) = (vec![0; length], vec![0; length], vec![0; length], [0; RECORD_WORDS]);
    let mut buffers = Buffers { cache: &mut cache, nvm: &mut nvm, flags: &mut flags, record: &mut record };
    let mut start = [0; 16];
    start[..2].copy_from_slice(&first_words);
    calls(&mut Store::format(&mut buffers, sizes, GREATEST_LAG, &start).expect("format"));
    let bytes: Vec<u8> = nvm.iter().flat_map(|word| word.to_le_bytes()).collect();
    fs::write(path, bytes).expect("the store's file");
}

const ADD_TO_BOTH: [Instruction; 2] = [Instruction::Add { to: 0, from: 0, value: 1 }, Instruction::Add { to: 1, from: 1, value: 1 }];

#[test]
fn each_example_goes_on_with_the_others_file() {
    for [first, second] in [[c_example(), rust_example()], [rust_example(), c_example()]] {
        let file = fresh("in-turns");
        let mut printed = lines(first, &file, 5);
        assert_eq!(printed.remove(0), "formatted");
        assert_eq!(printed, counted(0, 5));
        for (turn, program) in [second, first, second].into_iter().enumerate() {
            let mut printed = lines(program, &file, 5);
            // each transaction is settled and drained: no lane gives a boundary, and no slot is torn
            assert_eq!(printed.remove(0), "recovered: nothing to undo, 0 slots torn");
            assert_eq!(printed, counted(5 + 5 * turn as u64, 5));
        }
    }
}

/// A commit that is drained and not settled is undone, and one that is settled and drained is kept; of a log of which one word came through a slot is torn.
#[test]
fn the_examples_say_what_recovery_did() {
    for (name, program) in examples() {
        let file = fresh(&format!("left-{name}"));
        let first_line = |first: u64| {
            let printed = lines(program, &file, 2);
            assert_eq!(printed[1..], counted(first, 2), "{name}");
            printed[0].clone()
        };
        left_by(&file, [7, 7], |store| {
            assert_eq!((store.commit(0, &ADD_TO_BOTH), store.drain(0)), (Ok(Some(4)), Ok(())));
        });
        assert_eq!(first_line(7), "recovered: boundary 4, 2 entries undone, 0 slots torn", "{name}");
        left_by(&file, [7, 7], |store| assert_eq!((store.commit(0, &ADD_TO_BOTH), store.persist(0)), (Ok(Some(4)), Ok(6))));
        assert_eq!(first_line(8), "recovered: nothing to undo, 0 slots torn", "{name}");
        left_by(&file, [7, 7], |store| {
            assert!(store.log(0, &ADD_TO_BOTH).is_ok());
            assert_eq!(store.write_back(17), Ok(()));
        });
        assert_eq!(first_line(7), "recovered: nothing to undo, 1 slots torn", "{name}");
    }
}

/// A file that a kill during Format left behind does not matter.
#[test]
fn half_a_format_is_made_again() {
    for (name, program) in examples() {
        let file = fresh(&format!("half-{name}"));
        let half = file.with_extension("counters.new");
        fs::write(&half, vec![0x55; 3_000]).expect("half a store");
        let mut printed = lines(program, &file, 1);
        assert_eq!(printed.remove(0), "formatted", "{name}");
        assert_eq!(printed, counted(0, 1), "{name}");
        assert!(!half.exists() && lines(program, &file, 0)[1..] == counted(1, 0), "{name}");
    }
}

#[test]
fn the_examples_refuse_damaged_files() {
    for (name, program) in examples() {
        let file = fresh(&format!("damaged-{name}"));
        assert_eq!(lines(program, &file, 3).len(), 5);
        let whole = fs::read(&file).expect("the store's file");
        assert_eq!(whole.len(), 8 * 149);
        let spoiled = |at: usize, bit: u8| {
            let mut bytes = whole.clone();
            bytes[at] ^= bit;
            bytes
        };
        let last = whole.len() - 8;
        for (bytes, number) in [
            (whole[..last].to_vec(), 14),
            (whole[..last + 5].to_vec(), 14),
            (whole[..whole.len() / 2].to_vec(), 14),
            ([&whole[..], &[0; 8]].concat(), 14),
            (spoiled(last, 1), 14),
            (spoiled(last - 8, 64), 14),
            (spoiled(last - 16, 255), 14),
            // the base word, odd
            (spoiled(0, 1), 10),
        ] {
            fs::write(&file, &bytes).expect("the damaged file");
            let Output { status, stdout, stderr } = run(program, &file, "3");
            let said = String::from_utf8_lossy(&stderr);
            let place = format!("{name}, {} bytes: {status}, {said}", bytes.len());
            // the C program looks at the length itself, since its buffers have one
            let told = said.starts_with(&format!("refused {number}: ")) || bytes.len() != whole.len() && said.ends_with(": no store of counters\n");
            assert!(status.code() == Some(1) && told && stdout.is_empty(), "{place}");
            assert!(fs::read(&file).expect("the damaged file") == bytes, "{place}");
        }
    }
}

#[test]
fn the_examples_complain() {
    for (name, program) in examples() {
        let file = fresh(&format!("unequal-{name}"));
        left_by(&file, [3, 4], |_| {});
        let Output { status, stdout, stderr } = run(program, &file, "1");
        assert_eq!(String::from_utf8_lossy(&stdout), "recovered: nothing to undo, 0 slots torn\ncounters 3 4\n", "{name}");
        assert!(status.code() == Some(1) && stderr.ends_with(b"\n"), "{name}: {status}");
        for arguments in [&[][..], &["a", "1", "2"]] {
            let Output { status, stdout, stderr } = Command::new(program).args(arguments).output().expect("the example");
            assert!(status.code() == Some(2) && stdout.is_empty() && !stderr.is_empty(), "{name}, {arguments:?}: {status}");
        }
    }
}
