//! Memory that is lent: patterns, level tables and family buffers.

use reference::{Level, COLUMNS, FAMILY, LEVELS, PLOTS};

/// Bytes in which an untouched one shows.
pub fn pattern(length: usize) -> Vec<u8> {
    (0..length).map(|i| (i as u8).wrapping_mul(31) ^ 0xA5).collect()
}

/// Levels in which an untouched one shows, and one of which only a half was written: neither half is that of a low or of a high level.
pub fn pattern_levels(length: usize) -> Vec<Level> {
    (0..length).map(|i| (i as Level).wrapping_mul(7919 * 65_537) ^ 0xA55A_5AA5).collect()
}

/// A level table with these plot and treatment columns; the cells that they do not use are 0.
pub fn level_table(plot_columns: &[Vec<Level>], treatment_columns: &[Vec<Level>]) -> Vec<Level> {
    let mut levels = vec![0; LEVELS];
    let numbered = plot_columns.iter().enumerate().chain(treatment_columns.iter().enumerate().map(|(c, t)| (c + COLUMNS, t)));
    for (c, column) in numbered {
        levels[PLOTS * c..PLOTS * c + column.len()].copy_from_slice(column);
    }
    levels
}

/// The members that a design left in its buffer.
pub fn members(buffer: &[u8], plots: usize, size: u64) -> Vec<Vec<u8>> {
    (0..size as usize).map(|i| buffer[PLOTS * i..PLOTS * i + plots].to_vec()).collect()
}

/// A buffer of the least length with these members, longer for more than 32, the rest a pattern.
pub fn family_buffer(members: &[Vec<u8>]) -> Vec<u8> {
    let mut buffer = pattern(FAMILY.max(PLOTS * members.len()));
    for (i, member) in members.iter().enumerate() {
        buffer[PLOTS * i..PLOTS * i + member.len()].copy_from_slice(member);
    }
    buffer
}

/// So much memory before and after what is lent for writing is looked at too.
pub const GUARD: usize = 64;

/// So many bytes that are lent for writing, with a pattern in them and in the guards around them.
pub fn lent_bytes(length: usize) -> Vec<u8> {
    pattern(length + 2 * GUARD)
}

/// So many levels alike.
pub fn lent_levels(length: usize) -> Vec<Level> {
    pattern_levels(length + 2 * GUARD)
}

/// What is lent of a piece of memory with guards.
pub fn inner<T>(all: &mut [T]) -> &mut [T] {
    let end = all.len() - GUARD;
    &mut all[GUARD..end]
}
