//! The entries, a module each: random calls, how one is run, how it is made smaller, the library's function, and faults put into it on
//! purpose. A new entry is a new file here and its name at the end of the list below.

use crate::call::{Call, Outcome};
use crate::random::Random;
use crate::shrink::Steps;
use reference::Entries;
use std::fmt;

/// What the comparison knows of an entry.
pub struct Entry {
    /// Its name, that of its module. The header has it after `rachdoum_`, unless the entry comes from another archive.
    pub title: &'static str,
    /// The refusals that it can answer: a run has to see each.
    pub refusals: &'static [u32],
    /// Where its answer tells something that a run has to see too.
    pub told: Option<Told>,
    /// A call made at random.
    pub make: fn(&mut Random) -> Call,
    /// Runs a call on one implementation.
    pub run: fn(&Call, &Entries) -> Outcome,
    /// The plots of a call if the literal version's time grows fast with them, else 0.
    pub plots: fn(&Call) -> usize,
    /// The ways in which a call is made smaller, in this order.
    pub steps: &'static [Steps],
    /// So many random calls are made by the second implementation's own test.
    pub calls: u64,
}

/// What an answer without a refusal tells, as a number: the refusal in a printed text, 0 for none, or how two factors stand.
pub struct Told {
    /// What it is called in the table of a run.
    pub title: &'static str,
    /// The numbers that a run has to see.
    pub numbers: &'static [u32],
    pub of: fn(&Outcome) -> u32,
}

/// A fault put into the library on purpose: what it is, and the entries with it in place.
#[cfg(feature = "library")]
pub struct Fault {
    pub title: &'static str,
    pub entries: Entries,
}

/// What stands in the numbers of the library's answer before a call: one that is not written shows in a comparison.
#[cfg(feature = "library")]
pub const STALE: u64 = 0xD15E_A5ED_0DD5_EED5;

/// Levels of which only the lower 16 bits are left: a fault of entries that take a level table.
#[cfg(feature = "library")]
pub fn cut(levels: &[reference::Level]) -> Vec<reference::Level> {
    levels.iter().map(|level| level & 0xFFFF).collect()
}

/// Gathers the modules of the entries.
macro_rules! entries {
    ($($name:ident,)*) => {
        $(pub mod $name;)*

        /// All entries. The random calls of one depend on its place here.
        pub static ALL: &[&Entry] = &[$(&$name::ENTRY),*];

        /// The entries of the proved library.
        #[cfg(feature = "library")]
        pub const LIBRARY: Entries = Entries { title: "library", $($name: $name::library::$name),* };

        /// The faults of each entry.
        #[cfg(feature = "library")]
        pub static FAULTS: &[(&Entry, &[Fault])] = &[$((&$name::ENTRY, $name::library::FAULTS)),*];
    };
}

entries! {
    read_sheet,
    plot_design,
    full_design,
    relation,
    degrees,
    strata,
    name,
    skeleton,
    number,
    convert,
    formula,
    compare,
}

/// The entry of this name.
pub fn titled(title: &str) -> Option<&'static Entry> {
    ALL.iter().copied().find(|entry| entry.title == title)
}

impl Entry {
    /// The call that belongs to a seed and an index.
    pub fn call(&'static self, seed: u64, index: u64) -> Call {
        let place = ALL.iter().position(|entry| *entry == self).unwrap_or(ALL.len());
        (self.make)(&mut Random::of(seed, place as u64, index))
    }
}

impl Default for &'static Entry {
    fn default() -> &'static Entry {
        ALL[0]
    }
}

impl PartialEq for Entry {
    fn eq(&self, other: &Entry) -> bool {
        self.title == other.title
    }
}

impl Eq for Entry {}

impl fmt::Debug for Entry {
    fn fmt(&self, out: &mut fmt::Formatter) -> fmt::Result {
        out.write_str(self.title)
    }
}
