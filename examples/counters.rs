//! Two counters that survive `kill -9`: `counters FILE [COUNT]` adds 1 to both in one transaction, COUNT times or for ever, and prints `kept N` once no kill can take that back.
//! In bindings/rust: `cargo run --offline --example counters -- FILE`; kill it, and start it again. The file is mapped and stands for the non-volatile memory: of a process that is
//! killed the kernel keeps all stores, in order. For power cuts it must be persistent memory: docs/INTEGRATION.md. One process at a time may have the file. x86-64 Linux.

use std::error::Error;
use std::fs::{self, File, OpenOptions};
use std::io::{self, Write};
use std::os::fd::AsRawFd;
use std::process::ExitCode;
use vandzulge::{Buffers, Instruction, Sizes, Store, GREATEST_LAG, RECORD_WORDS};

/// 16 words, one lane, 64 slots in its log.
const SIZES: Sizes = match Sizes::new(16, 1, 64) {
    Ok(sizes) => sizes,
    Err(_) => panic!("sizes out of range"),
};

const ADD_TO_BOTH: [Instruction; 2] = [Instruction::Add { to: 0, from: 0, value: 1 }, Instruction::Add { to: 1, from: 1, value: 1 }];

fn main() -> ExitCode {
    let mut arguments = std::env::args().skip(1);
    let told = (arguments.next(), arguments.next().map_or(Ok(u64::MAX), |count| count.parse()), arguments.next());
    let (Some(path), Ok(count), None) = told else {
        eprintln!("usage: counters FILE [COUNT]");
        return ExitCode::from(2);
    };
    if let Err(error) = run(&path, count) {
        eprintln!("{error}"); // a refusal says its number itself
        return ExitCode::FAILURE;
    }
    ExitCode::SUCCESS
}

fn run(path: &str, count: u64) -> Result<(), Box<dyn Error>> {
    let out = &mut io::stdout().lock();
    let found = fs::exists(path)?;
    // Format is made in another file, which gets the name when it is whole
    let new_path = &format!("{path}.new");
    let file = OpenOptions::new().read(true).write(true).create(!found).truncate(!found).open(if found { path } else { new_path })?;
    if !found {
        file.set_len(8 * SIZES.image_words() as u64)?;
    }
    let nvm = map(&file)?;
    let (mut cache, mut flags, mut record) = (vec![0; nvm.len()], vec![0; nvm.len()], [0; RECORD_WORDS]);
    let mut buffers = Buffers { cache: &mut cache, nvm, flags: &mut flags, record: &mut record };
    let mut store = if found {
        let (store, recovery) = Store::recover(&mut buffers, GREATEST_LAG)?;
        if store.sizes() != SIZES {
            return Err("no store of counters".into());
        }
        match recovery.boundary {
            Some(boundary) => writeln!(out, "recovered: boundary {boundary}, {} entries undone, {} slots torn", recovery.undone, recovery.torn)?,
            None => writeln!(out, "recovered: nothing to undo, {} slots torn", recovery.torn)?,
        }
        store
    } else {
        let store = Store::format(&mut buffers, SIZES, GREATEST_LAG, &[0; SIZES.words()])?;
        fs::rename(new_path, path)?;
        writeln!(out, "formatted")?;
        store
    };
    let (first, second) = (store.words()[0], store.words()[1]);
    writeln!(out, "counters {first} {second}")?;
    out.flush()?;
    if first != second {
        return Err("the counters differ".into());
    }
    for _ in 0..count {
        // undo entries first, then the writes; with one lane Redo is never stale
        store.log(0, &ADD_TO_BOTH)?;
        store.redo(0)?;
        // committed, and lost at a cut until a mark stands behind it in the memory
        store.settle(0)?;
        store.drain(0)?;
        writeln!(out, "kept {}", store.words()[0])?;
        out.flush()?;
    }
    Ok(())
}

/// The whole words of a file, shared with it until the process ends.
fn map(file: &File) -> io::Result<&'static mut [u64]> {
    extern "C" {
        fn mmap(address: *mut u8, bytes: usize, protection: i32, flags: i32, file: i32, offset: i64) -> *mut u8;
    }
    let words = file.metadata()?.len() as usize / 8;
    if words == 0 {
        return Ok(&mut []);
    }
    // SAFETY: the pages are new, aligned, of this length, and never unmapped. That no one else writes or shortens the file is the user's part.
    unsafe {
        let pages = mmap(std::ptr::null_mut(), 8 * words, 3 /* read, write */, 1 /* shared */, file.as_raw_fd(), 0);
        if pages as isize == -1 {
            return Err(io::Error::last_os_error());
        }
        Ok(std::slice::from_raw_parts_mut(pages.cast(), words))
    }
}
