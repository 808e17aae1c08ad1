//! Coverage of the library's own machine code, which has no instrumentation: a breakpoint at each basic block.
//!
//! The file that FUZZ_BLOCKS names has addresses, one a line: first that of `rachdoum_read_sheet`, then those of the blocks. A block
//! is reported to libFuzzer in the run that reaches it first. Its breakpoint is gone then, so later runs take no more time.

use crate::system::{atexit, mprotect, sigaction, Action, CONTEXT_POINTER, EXECUTE, READ, SA_SIGINFO, SIGTRAP, WRITE};
use std::ffi::c_void;
use std::sync::atomic::{AtomicBool, Ordering};
use std::sync::OnceLock;

/// Blocks that can be told apart.
pub const MOST: usize = 8192;
const BREAKPOINT: u8 = 0xCC;
const PAGE: usize = 4096;

/// libFuzzer takes the numbers in this section as coverage.
#[used]
#[link_section = "__libfuzzer_extra_counters"]
static mut REACHED: [u8; MOST] = [0; MOST];

static TABLE: OnceLock<Vec<(usize, u8)>> = OnceLock::new();
/// The blocks as the file has them, in order, and which of them were reached in any run.
static LISTED: OnceLock<Vec<usize>> = OnceLock::new();
static EVER: [AtomicBool; MOST] = [const { AtomicBool::new(false) }; MOST];

extern "C" {
    fn rachdoum_read_sheet();
}

/// The addresses of the file of blocks, those of blocks in order; none if no file is named.
pub fn addresses() -> Vec<usize> {
    let Some(file) = std::env::var_os("FUZZ_BLOCKS") else { return Vec::new() };
    let text = std::fs::read_to_string(file).expect("the file of blocks can be read");
    let address = |line: &str| usize::from_str_radix(line, 16).expect("a line of the file of blocks is an address");
    let mut addresses: Vec<usize> = text.lines().map(address).collect();
    addresses[1..].sort_unstable();
    addresses
}

/// Tells libFuzzer that a block was reached for the first time.
pub fn reached(block: usize) {
    EVER[block % MOST].store(true, Ordering::Relaxed);
    unsafe { (&raw mut REACHED).cast::<u8>().add(block % MOST).write(1) }
}

/// At the end: how many blocks were reached; those that were not go to the file that FUZZ_MISSED names.
extern "C" fn report() {
    let Some(listed) = LISTED.get() else { return };
    let missed = listed.iter().zip(&EVER).filter(|(_, ever)| !ever.load(Ordering::Relaxed));
    let missed: Vec<String> = missed.map(|(at, _)| format!("{at:x}\n")).collect();
    eprintln!("blocks reached: {} of {}", listed.len() - missed.len(), listed.len());
    if let Some(file) = std::env::var_os("FUZZ_MISSED") {
        let _ = std::fs::write(file, missed.concat());
    }
}

/// Takes down the blocks, in order, for the report at the end.
pub fn list(blocks: Vec<usize>) {
    assert!(blocks.len() <= MOST, "more blocks than can be told apart");
    let _ = LISTED.set(blocks);
    unsafe { atexit(report) };
}

/// At a breakpoint: puts the instruction back, reports the block and goes on there.
extern "C" fn trapped(_: i32, _: *const c_void, context: *mut c_void) {
    unsafe {
        let pointer = context.byte_add(CONTEXT_POINTER).cast::<usize>();
        let at = *pointer - 1;
        let table = TABLE.get().map_or(&[][..], |table| &table[..]);
        let Ok(block) = table.binary_search_by_key(&at, |entry| entry.0) else { std::process::abort() };
        (at as *mut u8).write_volatile(table[block].1);
        *pointer = at;
        reached(block);
    }
}

/// A fault for trying out the fuzzer: the conditional jump at the address FUZZ_FLIP, as linked, is taken when it should not be.
unsafe fn flip(moved: usize) {
    let Ok(address) = std::env::var("FUZZ_FLIP") else { return };
    let at = usize::from_str_radix(&address, 16).expect("FUZZ_FLIP is an address").wrapping_add(moved) as *mut u8;
    // A short jump is 7x, a long one is 0F 8x; the lowest bit of x turns the condition round.
    let condition = if *at == 0x0F { at.add(1) } else { at };
    assert!(matches!(*condition, 0x70..=0x8F), "no conditional jump there");
    condition.write_volatile(*condition ^ 1);
}

/// Sets a breakpoint at each block of the library.
pub fn start() {
    let addresses = addresses();
    let Some((&known, blocks)) = addresses.split_first() else { return };
    let moved = (rachdoum_read_sheet as *const () as usize).wrapping_sub(known);
    let places: Vec<usize> = blocks.iter().map(|&block| block.wrapping_add(moved)).collect();
    let (Some(first), Some(last)) = (places.first(), places.last()) else { return };
    let from = first & !(PAGE - 1);
    // The addresses are beginnings of instructions of the library, which nothing runs yet.
    unsafe {
        assert_eq!(mprotect(from as *mut c_void, last + 1 - from, READ | WRITE | EXECUTE), 0, "the code cannot be written");
        flip(moved);
        let table = places.iter().map(|&at| (at, *(at as *const u8))).collect();
        let _ = TABLE.set(table);
        let action = Action { handler: trapped, mask: [0; 16], flags: SA_SIGINFO, restorer: 0 };
        assert_eq!(sigaction(SIGTRAP, &action, std::ptr::null_mut()), 0, "no handler of breakpoints");
        places.iter().for_each(|&at| (at as *mut u8).write_volatile(BREAKPOINT));
    }
    list(blocks.to_vec());
}
