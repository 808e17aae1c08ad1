//! Sheets of rising size: one entry timed on each, the library beside the reference.

use crate::entries::{Entry, Trial};
use crate::sheets::Sheet;
use crate::{timing, PAIR};
use std::time::Duration;

/// Numbers of plots, for sheets that grow by plots.
pub const BY_PLOTS: [usize; 5] = [15, 30, 60, 120, 240];

/// Sheets of rising size, and the entry that is timed on them.
pub struct Series {
    pub title: String,
    pub entry: &'static Entry,
    /// What is said of each sheet beside its size: a heading, and the words below it.
    pub said: (&'static str, fn(&Trial) -> String),
    /// Digits of the microseconds after the point.
    pub digits: usize,
    pub sheets: Vec<(usize, Sheet)>,
}

impl Series {
    /// Times each sheet and prints a line for it; gives the sizes with the microseconds of the library and of the reference. Nothing
    /// where the two differ.
    pub fn measure(&self, limit: Duration) -> Option<Vec<(usize, [f64; 2])>> {
        let ((heading, said), digits) = (self.said, self.digits);
        println!("\n{}\n{:>8}  {heading:<10}{:>10}{:>10}{:>8}", self.title, "", "library", "reference", "ratio");
        let mut measured = Vec::new();
        for (size, sheet) in &self.sheets {
            let trial = Trial::new(sheet);
            if !timing::same(PAIR, self.entry, &trial) {
                println!("{size:>8}  THE TWO DIFFER");
                return None;
            }
            let [library, reference] = timing::alternate(PAIR, self.entry, &trial, limit).map(|spent| spent.least);
            println!("{size:>8}  {:<10}{library:>10.digits$}{reference:>10.digits$}{:>8.2}", said(&trial), library / reference);
            measured.push((*size, [library, reference]));
        }
        Some(measured)
    }
}
