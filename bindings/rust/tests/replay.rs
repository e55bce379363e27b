//! Replays the recorded calls (docs/TRACE.md) on both implementations: what they print must be the recorded output, byte for byte.

mod common;

use common::{Call, Calls, World, LIBRARY, PLAIN};
use std::fmt::{Display, Write};
use vandzulge::raw::ANSWER_WORDS;
use vandzulge::{GREATEST_LAG, RECORD_WORDS};

const MAX_INPUT_WORDS: usize = 131_072;
/// Words of each buffer.
const LENT_WORDS: usize = 5_125;

/// The words of the input that are left.
struct Input<'a>(&'a [u64]);

impl<'a> Input<'a> {
    fn word(&mut self) -> Option<u64> {
        let (&word, rest) = self.0.split_first()?;
        self.0 = rest;
        Some(word)
    }

    fn words(&mut self, count: usize) -> Option<&'a [u64]> {
        let (words, rest) = self.0.split_at_checked(count)?;
        self.0 = rest;
        Some(words)
    }

    /// A count of at most `most`, then so many words.
    fn counted(&mut self, most: u64) -> Option<&'a [u64]> {
        let count = self.word()?;
        if count > most {
            return None;
        }
        self.words(count as usize)
    }
}

/// One trace's buffers, of the greatest length; a call is lent their first part.
struct Replay<'a> {
    calls: &'a Calls,
    sizes: [usize; 3],
    /// whether calls get images of the former length
    former: bool,
    /// the lag limit that Format and the recoveries are given
    max_lag: u64,
    cache: Vec<u64>,
    nvm: Vec<u64>,
    flags: Vec<u8>,
    record: Vec<u64>,
}

impl Replay<'_> {
    fn in_range(&self) -> bool {
        let [words, lanes, slots] = self.sizes;
        (1..=1024).contains(&words) && (1..=8).contains(&lanes) && (34..=256).contains(&slots)
    }

    fn length(&self) -> usize {
        let [words, lanes, slots] = self.sizes;
        match (self.in_range(), self.former) {
            (false, _) => 0,
            (true, true) => 1 + words + 2 * lanes * slots,
            (true, false) => 1 + words + 2 * lanes * slots + 4,
        }
    }

    /// Makes a call; the number, and the answer's words where it was taken.
    fn call(&mut self, call: Call) -> (u64, [u64; ANSWER_WORDS]) {
        let length = self.length();
        self.call_on(call, length, length, length)
    }

    /// The same with so many words of cells, cached image and flags.
    fn call_on(&mut self, call: Call, cells: usize, cached: usize, flags: usize) -> (u64, [u64; ANSWER_WORDS]) {
        let [words, lanes, slots] = self.sizes;
        let mut world = World {
            words,
            lanes,
            slots,
            max_lag: self.max_lag,
            cache: self.cache[..cached].to_vec(),
            nvm: self.nvm[..cells].to_vec(),
            flags: self.flags[..flags].to_vec(),
            record: self.record.clone(),
            answer: vec![7; ANSWER_WORDS],
        };
        let number = world.call(self.calls, &call);
        self.cache[..cached].copy_from_slice(&world.cache);
        self.nvm[..cells].copy_from_slice(&world.nvm);
        self.flags[..flags].copy_from_slice(&world.flags);
        self.record = world.record;
        (number, world.answer.try_into().unwrap())
    }

    fn poke(&mut self, buffer: u64, index: u64, value: u64) {
        if index >= self.length() as u64 {
            return;
        }
        let index = index as usize;
        match buffer {
            0 => self.cache[index] = value,
            1 => self.nvm[index] = value,
            2 => self.flags[index] = value as u8,
            _ => {}
        }
    }

    /// The words that are dumped, by name.
    fn parts(&self) -> [(&'static str, Vec<u64>); 4] {
        let length = self.length();
        [
            ("cached", self.cache[..length].to_vec()),
            ("cells", self.nvm[..length].to_vec()),
            ("flags", self.flags[..length].iter().map(|&flag| flag as u64).collect()),
            ("record", self.record.clone()),
        ]
    }

    /// One op: false where the trace ends, none where it is malformed.
    fn op(&mut self, input: &mut Input, out: &mut String) -> Option<bool> {
        match input.word()? {
            0 => return Some(false),
            1 => {
                let lane = input.word()? as usize;
                let txn = input.counted(80)?.to_vec();
                match self.call(Call::Log(lane, txn)) {
                    (0, [0, 0, ..]) => line(out, "log 0"),
                    (0, [count, stamp, ..]) => line(out, format_args!("log {count} {stamp}")),
                    (number, _) => line(out, format_args!("log refused {number}")),
                }
            }
            2 => {
                let lane = input.word()? as usize;
                match self.call(Call::Redo(lane)) {
                    (0, [0, ..]) => line(out, "redo stale"),
                    (0, [_, stamp, ..]) => line(out, format_args!("redo {stamp}")),
                    (number, _) => line(out, format_args!("redo refused {number}")),
                }
            }
            3 => {
                let lane = input.word()? as usize;
                let txn = input.counted(80)?.to_vec();
                match self.call(Call::Validate(lane, txn)) {
                    (0, [0, ..]) => line(out, "validate changed"),
                    (0, [_, stamp, ..]) => line(out, format_args!("validate {stamp}")),
                    (number, _) => line(out, format_args!("validate refused {number}")),
                }
            }
            4 => {
                let lane = input.word()? as usize;
                match self.call(Call::Mark(lane)) {
                    (0, [0, stamp, ..]) => line(out, format_args!("mark {stamp}")),
                    (0, [_, stamp, ..]) => line(out, format_args!("mark {stamp} dropped")),
                    (number, _) => line(out, format_args!("mark refused {number}")),
                }
            }
            5 => {
                let lane = input.word()? as usize;
                match self.call(Call::Drain(lane)) {
                    (0, _) => line(out, "drain"),
                    (number, _) => line(out, format_args!("drain refused {number}")),
                }
            }
            6 => {
                let word = input.word()? as usize;
                match self.call(Call::WriteBack(word)) {
                    (0, _) => line(out, "write-back"),
                    (number, _) => line(out, format_args!("write-back refused {number}")),
                }
            }
            7 => {
                let limit = input.word()? as usize;
                recovery_line(out, self.call(Call::Recover(limit)));
            }
            8 => {
                let start = input.words(if self.in_range() { self.sizes[0] } else { 0 })?.to_vec();
                match self.call(Call::Format(start)) {
                    (0, _) => line(out, "format"),
                    (number, _) => line(out, format_args!("format refused {number}")),
                }
            }
            9 => {
                for (name, words) in self.parts() {
                    out.push_str(name);
                    for word in words {
                        write!(out, " {word}").unwrap();
                    }
                    out.push('\n');
                }
            }
            10 => {
                let words = input.words(3)?;
                self.poke(words[0], words[1], words[2]);
            }
            11 => self.record = normal(input.words(RECORD_WORDS)?),
            12 => self.sizes = sizes(input)?,
            13 => {
                let at = input.words(2)?;
                for (offset, &value) in input.counted(5121)?.iter().enumerate() {
                    self.poke(at[0], at[1].saturating_add(offset as u64), value);
                }
            }
            14 => {
                out.push_str("digest");
                for (_, words) in self.parts() {
                    let digest = words.iter().fold(0u64, |digest, word| digest.rotate_left(7) ^ word);
                    write!(out, " {digest}").unwrap();
                }
                out.push('\n');
            }
            15 => self.former = input.word()? == 0,
            16 => {
                let limit = input.word()? as usize;
                let [cells, cached, flags] = sizes(input)?.map(|length| length.min(LENT_WORDS));
                recovery_line(out, self.call_on(Call::RecoverRead(limit), cells, cached, flags));
            }
            17 => self.max_lag = input.word()?,
            18 => {
                let lane = input.word()? as usize;
                let txn = input.counted(272)?.to_vec();
                match self.call(Call::Lock(lane, txn)) {
                    (0, [0, ..]) => line(out, "lock 0"),
                    (0, [left, stamp, ..]) => line(out, format_args!("lock {left} {stamp}")),
                    (number, _) => line(out, format_args!("lock refused {number}")),
                }
            }
            19 => {
                let lane = input.word()? as usize;
                match self.call(Call::Continue(lane)) {
                    (0, [left, stamp, ..]) => line(out, format_args!("continue {left} {stamp}")),
                    (number, _) => line(out, format_args!("continue refused {number}")),
                }
            }
            _ => return None,
        }
        Some(true)
    }
}

fn line(out: &mut String, text: impl Display) {
    writeln!(out, "{text}").unwrap();
}

fn recovery_line(out: &mut String, answered: (u64, [u64; ANSWER_WORDS])) {
    match answered {
        (0, [0, ..]) => line(out, "recover cut"),
        (0, [1, _, undone, torn]) => line(out, format_args!("recover none {undone} {torn}")),
        (0, [_, boundary, undone, torn]) => line(out, format_args!("recover {boundary} {undone} {torn}")),
        (number, _) => line(out, format_args!("recover refused {number}")),
    }
}

fn sizes(input: &mut Input) -> Option<[usize; 3]> {
    let words = input.words(3)?;
    Some([words[0] as usize, words[1] as usize, words[2] as usize])
}

/// Record words as they are dumped: 0 or 1 for phase, floor and lock, and 0 for what an idle lane, one without floor or a free lock does not have; the lock's pairs stay.
fn normal(words: &[u64]) -> Vec<u64> {
    let mut words = words.to_vec();
    let lock = &mut words[323..329];
    if lock[0] == 0 {
        lock.fill(0);
    }
    lock[0] = lock[0].min(1);
    for lane in words[2..322].chunks_exact_mut(40) {
        if lane[0] == 0 {
            lane[1..4].fill(0);
        }
        lane[0] = lane[0].min(1);
        if lane[6] == 0 {
            lane[7] = 0;
        }
        lane[6] = lane[6].min(1);
    }
    words
}

fn traces(calls: &Calls, mut input: Input, out: &mut String) -> Option<()> {
    while !input.0.is_empty() {
        let mut replay = Replay {
            calls,
            sizes: sizes(&mut input)?,
            former: false,
            max_lag: GREATEST_LAG,
            cache: vec![0; LENT_WORDS],
            nvm: vec![0; LENT_WORDS],
            flags: vec![0; LENT_WORDS],
            record: vec![0; RECORD_WORDS],
        };
        while replay.op(&mut input, out)? {}
    }
    Some(())
}

fn replay(calls: &Calls, bytes: &[u8]) -> String {
    let words: Vec<u64> = bytes.chunks_exact(8).map(|word| u64::from_le_bytes(word.try_into().unwrap())).collect();
    let mut out = String::new();
    if bytes.len() % 8 != 0 || words.len() > MAX_INPUT_WORDS || traces(calls, Input(&words), &mut out).is_none() {
        out.push_str("bad trace\n");
    }
    out
}

fn replays_the_recorded_calls(calls: &Calls) {
    let folder = std::path::Path::new(env!("CARGO_MANIFEST_DIR")).join("../../crates/replay");
    let input = std::fs::read(folder.join("stdin")).expect("crates/replay/stdin");
    let expected = std::fs::read_to_string(folder.join("stdout")).expect("crates/replay/stdout");
    let printed = replay(calls, &input);
    for (number, (ours, recorded)) in printed.lines().zip(expected.lines()).enumerate() {
        assert_eq!(ours, recorded, "{}: line {} of the output", calls.name, number + 1);
    }
    assert!(printed == expected, "{}: {} bytes printed, {} recorded", calls.name, printed.len(), expected.len());
}

#[test]
fn plain_replays_the_recorded_calls() {
    replays_the_recorded_calls(&PLAIN);
}

#[test]
fn library_replays_the_recorded_calls() {
    replays_the_recorded_calls(&LIBRARY);
}
