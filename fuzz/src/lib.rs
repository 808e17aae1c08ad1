//! What the two fuzz targets share.
//!
//! An input is the text of a sheet or of a formula. Where something else is chosen for a run (lengths, patterns, k, places), it is taken
//! from a hash of the text, so that an input alone repeats its run.

pub mod blocks;
pub mod child;
pub mod entries;
pub mod formula;
pub mod memory;
pub mod mutator;
pub mod oracle;
pub mod system;

/// A number that depends on every byte (FNV-1a, then mixed so that the low bits do too).
pub fn hash(text: &[u8]) -> usize {
    let sum = text.iter().fold(0xcbf2_9ce4_8422_2325u64, |sum, &byte| (sum ^ u64::from(byte)).wrapping_mul(0x100_0000_01b3));
    ((sum ^ sum >> 32).wrapping_mul(0x9e37_79b9_7f4a_7c15) >> 16) as usize
}

/// The text that libFuzzer hands over.
///
/// # Safety
///
/// `data` points to `size` bytes that live until the target returns.
pub unsafe fn input<'a>(data: *const u8, size: usize) -> &'a [u8] {
    match size {
        0 => &[],
        _ => std::slice::from_raw_parts(data, size),
    }
}
