//! One call on the library and on the second implementation, and where they differ.

use crate::call::{Call, Outcome};
use reference::{Entries, FAST, LITERAL};

/// What a comparison found.
pub struct Checked {
    pub outcome: Outcome,
    /// Whether the literal version was asked too.
    pub literal: bool,
    pub difference: Option<String>,
}

/// Compares one call with the fast version and, if wanted, with the literal one.
pub fn check(call: &Call, library: &Entries, literal: bool) -> Checked {
    let before = call.clone();
    let outcome = (call.entry.run)(call, library);
    let changed = (before != *call).then(|| "memory lent for reading was changed".to_string());
    // The references get the copy: what the library did to its own memory must not reach them.
    let against = |reference: &Entries| {
        let difference = outcome.difference(&(before.entry.run)(&before, reference));
        difference.map(|what| format!("library against {}: {what}", reference.title))
    };
    let difference = changed.or_else(|| against(&FAST)).or_else(|| if literal { against(&LITERAL) } else { None });
    Checked { outcome, literal, difference }
}

/// Whether the literal version is worth its time: where that grows with the plots and there are many, only in one call of four.
pub fn affordable(call: &Call, index: u64) -> bool {
    (call.entry.plots)(call) <= 64 || index.is_multiple_of(4)
}
