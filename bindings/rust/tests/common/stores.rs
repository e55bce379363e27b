//! Each store of a call to cache and non-volatile memory, one by one, as the processor makes it (x86-64 Linux). Both images stand in write-protected pages: a store
//! faults, is noted, is made alone by a single step, and the pages are protected again.

use std::ptr::addr_of_mut;
use std::sync::{Mutex, Once};

#[derive(Debug, Clone, Copy, PartialEq, Eq)]
pub enum Image {
    Nvm,
    Cache,
}

/// One store.
#[derive(Debug, Clone, Copy, PartialEq, Eq)]
pub struct Store {
    pub image: Image,
    /// The first byte stored to, counted from the image's start.
    pub byte: usize,
    /// How many bytes it stores; none where the instruction is no plain `mov`.
    pub width: Option<usize>,
    /// The image's word there after it.
    pub value: u64,
}

/// Makes a call on copies of the images and copies them back. What it returns, and its stores.
pub fn traced<R>(cache: &mut [u64], nvm: &mut [u64], call: impl FnOnce(&mut [u64], &mut [u64]) -> R) -> (R, Vec<Store>) {
    static ONE_AT_A_TIME: Mutex<()> = Mutex::new(());
    static INSTALLED: Once = Once::new();
    let _one = ONE_AT_A_TIME.lock().unwrap_or_else(|poisoned| poisoned.into_inner());
    INSTALLED.call_once(install);
    assert!(8 * cache.len() <= IMAGE_BYTES && 8 * nvm.len() <= IMAGE_BYTES);
    // SAFETY: the pages are this thread's while it has the lock, the two images stand apart in them, and only the handlers touch the trace during the call
    unsafe {
        let trace = addr_of_mut!(TRACE);
        let pages = (*trace).pages;
        let there = std::slice::from_raw_parts_mut(pages as *mut u64, nvm.len());
        let cached = std::slice::from_raw_parts_mut((pages + IMAGE_BYTES) as *mut u64, cache.len());
        there.copy_from_slice(nvm);
        cached.copy_from_slice(cache);
        (*trace).count = 0;
        protect(READ);
        let result = call(cached, there);
        protect(READ_WRITE);
        nvm.copy_from_slice(there);
        cache.copy_from_slice(cached);
        let stores = &(*trace).stores;
        (result, stores[..(*trace).count].to_vec())
    }
}

// ---- The handlers ----

/// Bytes that each image may take: whole pages, more than the greatest image.
const IMAGE_BYTES: usize = 16 * 4096;
const MOST_STORES: usize = 1 << 15;

struct Trace {
    /// `nvm`, then cache.
    pages: usize,
    stores: [Store; MOST_STORES],
    count: usize,
}

static mut TRACE: Trace = Trace { pages: 0, stores: [Store { image: Image::Nvm, byte: 0, width: None, value: 0 }; MOST_STORES], count: 0 };

/// A store into the pages: noted, and to be made by the next instruction alone. Any other fault ends the program, as without a handler.
unsafe extern "C" fn on_fault(signal: i32, info: *const usize, context: *mut usize) {
    // SAFETY: the kernel hands over these structures, and the call that the handler interrupts does not touch the trace
    unsafe {
        let trace = &mut *addr_of_mut!(TRACE);
        let byte = (*info.add(INFO_ADDRESS)).wrapping_sub(trace.pages);
        if byte >= 2 * IMAGE_BYTES || trace.count == MOST_STORES {
            sigaction(signal, &Action { handler: 0, mask: [0; 16], flags: 0, restorer: 0 }, std::ptr::null_mut());
            return;
        }
        let image = if byte < IMAGE_BYTES { Image::Nvm } else { Image::Cache };
        trace.stores[trace.count] = Store { image, byte: byte % IMAGE_BYTES, width: width(*context.add(CONTEXT_RIP) as *const u8), value: 0 };
        protect(READ_WRITE);
        *context.add(CONTEXT_FLAGS) |= TRAP_FLAG;
    }
}

/// After the single step: what the store left.
unsafe extern "C" fn on_step(_signal: i32, _info: *const usize, context: *mut usize) {
    // SAFETY: as above; the word lies in the pages
    unsafe {
        let trace = &mut *addr_of_mut!(TRACE);
        let store = &mut trace.stores[trace.count];
        let image = trace.pages + if store.image == Image::Nvm { 0 } else { IMAGE_BYTES };
        store.value = *((image + store.byte / 8 * 8) as *const u64);
        trace.count += 1;
        protect(READ);
        *context.add(CONTEXT_FLAGS) &= !TRAP_FLAG;
    }
}

/// How many bytes a `mov` of a register or constant to memory stores: opcodes 88, 89, C6 and C7, with the prefixes that change their width.
unsafe fn width(mut code: *const u8) -> Option<usize> {
    // SAFETY: an instruction that the processor has read
    unsafe {
        let mut bytes = 4;
        if *code == 0x66 {
            bytes = 2;
            code = code.add(1);
        }
        if *code & 0xf0 == 0x40 {
            bytes = if *code & 8 != 0 { 8 } else { bytes };
            code = code.add(1);
        }
        match *code {
            0x88 | 0xc6 => Some(1),
            0x89 | 0xc7 => Some(bytes),
            _ => None,
        }
    }
}

// ---- The system's calls and structures, as x86-64 Linux has them ----

const READ: i32 = 1;
const READ_WRITE: i32 = 3;
const PRIVATE_ANONYMOUS: i32 = 0x22;
const FAULT: i32 = 11;
const STEP: i32 = 5;
const WITH_INFO: i32 = 4;
const TRAP_FLAG: usize = 0x100;
/// Words into `siginfo_t` and `ucontext_t`.
const INFO_ADDRESS: usize = 2;
const CONTEXT_RIP: usize = 21;
const CONTEXT_FLAGS: usize = 22;

#[repr(C)]
struct Action {
    handler: usize,
    mask: [u64; 16],
    flags: i32,
    restorer: usize,
}

extern "C" {
    fn mmap(at: *mut u8, bytes: usize, access: i32, flags: i32, file: i32, offset: i64) -> *mut u8;
    fn mprotect(at: *mut u8, bytes: usize, access: i32) -> i32;
    fn sigaction(signal: i32, action: *const Action, old: *mut Action) -> i32;
}

unsafe fn protect(access: i32) {
    // SAFETY: the pages are mapped for good
    unsafe {
        let pages = (*addr_of_mut!(TRACE)).pages;
        if mprotect(pages as *mut u8, 2 * IMAGE_BYTES, access) != 0 {
            std::process::abort();
        }
    }
}

fn install() {
    // SAFETY: new pages, and handlers of the type that these signals take
    unsafe {
        let pages = mmap(std::ptr::null_mut(), 2 * IMAGE_BYTES, READ_WRITE, PRIVATE_ANONYMOUS, -1, 0) as usize;
        assert!(pages % 4096 == 0, "mmap");
        (*addr_of_mut!(TRACE)).pages = pages;
        for (signal, handler) in [(FAULT, on_fault as *const () as usize), (STEP, on_step as *const () as usize)] {
            let action = Action { handler, mask: [0; 16], flags: WITH_INFO, restorer: 0 };
            assert_eq!(sigaction(signal, &action, std::ptr::null_mut()), 0, "sigaction");
        }
    }
}
