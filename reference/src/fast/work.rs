//! Working memory, one for each thread, so that no call has to clear or allocate it.

use super::closing::Members;
use super::column::{Column, Walk};
use crate::{MEMBERS, PLOTS};
use std::cell::RefCell;

/// Whatever it holds from an earlier call is overwritten before it is read.
pub struct Work {
    pub walk: Walk,
    pub plot_members: Members,
    pub first_members: Members,
    pub final_members: Members,
    /// The members of both families, in order, over the points that both part.
    pub plot_columns: [Column; MEMBERS],
    pub first_columns: [Column; MEMBERS],
}

thread_local! {
    static WORK: RefCell<Work> = const {
        RefCell::new(Work {
            walk: Walk::new(),
            plot_members: Members::new(),
            first_members: Members::new(),
            final_members: Members::new(),
            plot_columns: [[0; PLOTS]; MEMBERS],
            first_columns: [[0; PLOTS]; MEMBERS],
        })
    };
}

/// Runs with this thread's working memory.
pub fn with_work<R>(run: impl FnOnce(&mut Work) -> R) -> R {
    WORK.with_borrow_mut(run)
}
