//! One call of one entry: what it is handed, and all that it leaves.

use crate::cells::Cells;
use crate::entries::Entry;
use crate::memory::GUARD;
use reference::Level;
use std::slice::from_mut;

/// A call. Each entry takes the parts that it has a use for; the others are empty or 0. A part that is added here gets its word in
/// [`Call::counts`], [`Call::texts`] or [`Call::tables`]: by these lists calls are written, read and made smaller.
#[derive(Clone, Debug, Default, PartialEq, Eq)]
pub struct Call {
    pub entry: &'static Entry,
    pub plots: usize,
    /// Plot columns and treatment columns.
    pub columns: [usize; 2],
    pub k: usize,
    pub kind: usize,
    pub place: usize,
    /// The sizes of the families that are handed over, and a place in each of two.
    pub sizes: [usize; 2],
    pub places: [usize; 2],
    /// The lengths of what is lent for writing: level table, family, both families, name, table or sheet.
    pub lent: [usize; 2],
    pub text: Vec<u8>,
    pub levels: Vec<Level>,
    /// Families that are read: the plot family and the treatment family, any two, or one family at the first place.
    pub families: [Vec<u8>; 2],
}

impl Call {
    pub fn new(entry: &'static Entry) -> Call {
        Call { entry, ..Call::default() }
    }

    /// The counts, each with its word; the lengths of what is lent come last.
    pub fn counts(&mut self) -> Vec<(&'static str, &mut [usize])> {
        vec![
            ("plots", from_mut(&mut self.plots)),
            ("columns", &mut self.columns),
            ("k", from_mut(&mut self.k)),
            ("kind", from_mut(&mut self.kind)),
            ("place", from_mut(&mut self.place)),
            ("sizes", &mut self.sizes),
            ("places", &mut self.places),
            ("lent", &mut self.lent),
        ]
    }

    /// The texts, each with its word.
    pub fn texts(&mut self) -> Vec<(&'static str, &mut Vec<u8>)> {
        vec![("text", &mut self.text)]
    }

    /// The tables of numbers, each with its word.
    pub fn tables(&mut self) -> Vec<(&'static str, &mut dyn Cells)> {
        let [first, second] = &mut self.families;
        vec![("levels", &mut self.levels), ("family 1", first), ("family 2", second)]
    }
}

/// All that a call leaves: its refusal, each number of its answer, and the memory that was lent, with the guards around it.
#[derive(Clone, Debug, PartialEq, Eq)]
pub struct Outcome {
    pub refusal: u32,
    pub answer: Vec<i128>,
    pub levels: Vec<Level>,
    pub bytes: Vec<Vec<u8>>,
}

impl Outcome {
    /// What is answered, with the bytes that were lent.
    pub fn of<T: Into<i128>, const LENGTH: usize>(found: (u32, [T; LENGTH]), bytes: Vec<Vec<u8>>) -> Outcome {
        let answer = found.1.into_iter().map(Into::into).collect();
        Outcome { refusal: found.0, answer, levels: Vec::new(), bytes }
    }

    /// Where two outcomes differ, in words; nothing where they are the same.
    pub fn difference(&self, other: &Outcome) -> Option<String> {
        if self.refusal != other.refusal {
            return Some(format!("refusal {} against {}", self.refusal, other.refusal));
        }
        let numbers = first_difference("number of the answer", 0, &self.answer, &other.answer);
        let levels = || first_difference("cell of the level table", GUARD, &self.levels, &other.levels);
        let buffers = || {
            let pairs = self.bytes.iter().zip(&other.bytes).enumerate();
            pairs.map(|(i, (a, b))| first_difference(&format!("byte of buffer {}", i + 1), GUARD, a, b)).find_map(|found| found)
        };
        numbers.or_else(levels).or_else(buffers)
    }
}

/// The first place, counted from 0 after the guard, where two lists differ.
fn first_difference<T: PartialEq + std::fmt::Display>(what: &str, guard: usize, a: &[T], b: &[T]) -> Option<String> {
    if a.len() != b.len() {
        return Some(format!("{what}: {} against {} of them", a.len(), b.len()));
    }
    let at = (0..a.len()).find(|&i| a[i] != b[i])?;
    Some(format!("{what} at {}: {} against {}", at as i64 - guard as i64, a[at], b[at]))
}
