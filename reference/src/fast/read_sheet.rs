//! The reader: questions 1 to 5.

use super::sheet::Header;
use crate::{Level, LEVELS, PLOTS, TEXT};

/// The reader: questions 1 to 5.
pub fn read_sheet(text: &[u8], levels: &mut [Level]) -> (u32, [u64; 3]) {
    if levels.len() < LEVELS {
        return (1, [0; 3]);
    }
    if !(1..=TEXT).contains(&text.len()) {
        return (2, [0; 3]);
    }
    let Some(header) = Header::read(text) else {
        return (3, [0; 3]);
    };
    let mut found = [0; LEVELS];
    match header.plot_lines(text, &mut found) {
        Err(refusal) => (refusal, [0; 3]),
        Ok(plots) => {
            for &column in &header.columns[..header.fields] {
                let at = PLOTS * usize::from(column);
                levels[at..at + plots].copy_from_slice(&found[at..at + plots]);
            }
            (0, [plots, header.plot_columns, header.treatment_columns].map(|count| count as u64))
        }
    }
}
