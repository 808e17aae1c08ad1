//! A program against the reference: a process for each text, which arrives in pieces; its output, whole, and how it ended.

#![no_main]

use fuzz::child::Program;
use fuzz::{hash, input, mutator, oracle};
use std::cell::RefCell;

/// A pipe takes no more than this at once.
const PACKET: usize = 4096;

thread_local! {
    static PROGRAM: RefCell<Program> = RefCell::new(Program::new().expect("FUZZ_PROGRAM names the program"));
}

/// The text in one to four pieces of any length, cut further where a piece is longer than a packet.
fn pieces(text: &[u8]) -> Vec<&[u8]> {
    let chosen = hash(text);
    let mut cuts: Vec<usize> = (0..chosen % 4).map(|i| (chosen >> (8 + 16 * i)) % (text.len() + 1)).collect();
    cuts.extend([0, text.len()]);
    cuts.sort_unstable();
    cuts.windows(2).flat_map(|ends| text[ends[0]..ends[1]].chunks(PACKET)).collect()
}

fn check(text: &[u8]) {
    let mut ended = PROGRAM.with_borrow_mut(|program| program.run(&pieces(text))).expect("the program can be run");
    let length = ended.output.len();
    oracle::plant(&mut ended.output, length);
    assert_eq!(ended.status, 0, "DIFFERENCE: the program did not end with 0");
    assert!(ended.output == oracle::of_program()(text), "DIFFERENCE in the output: {}", String::from_utf8_lossy(&ended.output));
}

#[no_mangle]
extern "C" fn LLVMFuzzerInitialize(_: *mut i32, _: *mut *mut *mut u8) -> i32 {
    PROGRAM.with_borrow(|_| ());
    0
}

#[no_mangle]
extern "C" fn LLVMFuzzerTestOneInput(data: *const u8, size: usize) -> i32 {
    check(unsafe { input(data, size) });
    0
}

#[no_mangle]
extern "C" fn LLVMFuzzerCustomMutator(data: *mut u8, size: usize, most: usize, seed: u32) -> usize {
    unsafe { mutator::mutate(data, size, most, seed) }
}
