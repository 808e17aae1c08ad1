//! The library against the reference: every entry on what a text leads to, each answer and every byte of lent memory.

#![no_main]

use compare::LIBRARY;
use fuzz::entries::{outcome, Lent, MOST};
use fuzz::{blocks, hash, input, mutator, oracle};
use reference::FAST;
use std::cell::RefCell;

thread_local! {
    static LENT: RefCell<[Lent; 2]> = RefCell::new([Lent::new(), Lent::new()]);
}

fn check(text: &[u8]) {
    let text = &text[..text.len().min(MOST)];
    let [library, reference] = LENT.with_borrow_mut(|[first, second]| [outcome(&LIBRARY, first, text), outcome(&FAST, second, text)]);
    assert_eq!(library.0, reference.0, "DIFFERENCE in an answer, the library's on the left");
    assert!(library.1 == reference.1, "DIFFERENCE in lent memory");
    if hash(text) % 8 < 2 {
        oracle::printed(text);
        oracle::converted(text);
        oracle::from_formula(text);
    }
}

#[no_mangle]
extern "C" fn LLVMFuzzerInitialize(_: *mut i32, _: *mut *mut *mut u8) -> i32 {
    blocks::start();
    0
}

#[no_mangle]
extern "C" fn LLVMFuzzerTestOneInput(data: *const u8, size: usize) -> i32 {
    check(unsafe { input(data, size) });
    0
}

#[no_mangle]
extern "C" fn LLVMFuzzerCustomMutator(data: *mut u8, size: usize, most: usize, seed: u32) -> usize {
    unsafe { mutator::mutate(data, size, most, seed) }
}
