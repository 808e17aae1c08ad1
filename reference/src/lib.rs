//! A second implementation of the planner of designed experiments, from the rules and the theory alone.
//!
//! [`literal`] says each rule as it is written; [`fast`] gives the same answers and is built for speed. Both have the same
//! public entries, a module each, gathered as [`LITERAL`] and [`FAST`], so that tests and benchmarks can take either.
//!
//! Every entry answers the number of the question that failed (0 for none) and its numbers. It takes any counts and any
//! slices: nothing is assumed of the caller.

#![forbid(unsafe_code)]
#![allow(clippy::type_complexity, clippy::needless_range_loop)]

/// A level of a column, from 1 to the highest number of this type; 0 is a level that is missing.
pub type Level = u32;
/// Most plots of a trial.
pub const PLOTS: usize = 240;
/// Most columns of one kind, plot or treatment.
pub const COLUMNS: usize = 6;
/// Most members of a family.
pub const MEMBERS: usize = 32;
/// Highest interaction level.
pub const INTERACTIONS: usize = 6;
/// Most bytes of a sheet's text.
pub const TEXT: usize = 32_768;
/// Numbers that a level table has to hold.
pub const LEVELS: usize = 2_880;
/// Bytes that a family buffer has to hold.
pub const FAMILY: usize = 7_680;
/// Bytes that a name's buffer has to hold.
pub const NAME: usize = 160;
/// Bytes that the buffer for the printed table has to hold.
pub const TABLE: usize = 32_768;
/// Bytes that the buffer for a sheet has to hold.
pub const SHEET: usize = 32_768;
/// Most bytes of a formula.
pub const FORMULA: usize = 256;
/// The last question's number: refusals are numbered from 1 to this.
pub const QUESTIONS: usize = 23;

/// How one factor stands to another, by the number that is answered. The first that fits is said, each of the first factor.
#[derive(Clone, Copy, Debug, PartialEq, Eq)]
pub enum Comparison {
    Equivalent = 1,
    Finer = 2,
    Coarser = 3,
    /// Without either being finer.
    Orthogonal = 4,
    NotOrthogonal = 5,
}

/// An entry that writes a sheet from a text into a buffer; refusal and the sheet's length.
pub type Writer = fn(&[u8], &mut [u8]) -> (u32, [u64; 1]);

/// The list of entries, handed to another macro: an entry's name and its shape. The name is that of its module and of its function,
/// both in [`literal`] and in [`fast`].
macro_rules! entries {
    ($taken:ident) => {
        $taken! {
            /// Text, level table; refusal and plots, plot columns, treatment columns (questions 1 to 5).
            read_sheet: fn(&[u8], &mut [Level]) -> (u32, [u64; 3]),
            /// Level table, plots, plot columns, family; refusal and first place, second place, size (6 to 10).
            plot_design: fn(&[Level], usize, usize, &mut [u8]) -> (u32, [u64; 3]),
            /// Level table, plots, plot columns, treatment columns, k, plot family, treatment family; refusal and first place,
            /// second place, plot size, treatment size (6 to 14).
            full_design: fn(&[Level], usize, usize, usize, usize, &mut [u8], &mut [u8]) -> (u32, [u64; 4]),
            /// Family, plots, size; refusal and the size, 32 words, 32 words of direct neighbours, 32 counts (6, 15).
            relation: fn(&[u8], usize, usize) -> (u32, [u32; 97]),
            /// Family, plots, size; refusal and 32 degrees of freedom (6, 15).
            degrees: fn(&[u8], usize, usize) -> (u32, [i64; 32]),
            /// Plot family, its size, treatment family, its size, plots; refusal and 32 places of strata by treatment member, then
            /// 32 residuals by plot member (6, 15, 16).
            strata: fn(&[u8], usize, &[u8], usize, usize) -> (u32, [i64; 64]),
            /// Text, level table, family, plots, size, kind (0 plot, else treatment), place, name; refusal and the name's length
            /// (2, 3, 6, 7, 15).
            name: fn(&[u8], &[Level], &[u8], usize, usize, u32, usize, &mut [u8]) -> (u32, [u64; 1]),
            /// Text, buffer for the table; 6 if that buffer is too short, else 0, and the printed text's length.
            skeleton: fn(&[u8], &mut [u8]) -> (u32, u64),
            /// A column of levels, 0 being one like any other, a stop, numbers; never a refusal, and the number of classes of the
            /// plots before the stop. The library's header does not have it.
            number: fn(&[Level], usize, &mut [u8; PLOTS]) -> (u32, [u64; 1]),
            /// A sheet numbered within parents, buffer for the sheet that it is converted to; refusal and that sheet's length (6, 2 to
            /// 5, 23).
            convert: Writer,
            /// A formula, buffer for the sheet of its structure; refusal and the sheet's length (6, 17, 18).
            formula: Writer,
            /// First family, its size, a place in it, second family, its size, a place in it, plots; refusal and how the first member
            /// stands to the second, a [`Comparison`] (6, 15).
            compare: fn(&[u8], usize, usize, &[u8], usize, usize, usize) -> (u32, [u64; 1]),
        }
    };
}

/// A module for each entry of the list.
macro_rules! modules {
    ($($(#[$said:meta])* $name:ident: $shape:ty,)*) => { $(pub mod $name;)* };
}

/// What gathers the functions of these modules.
macro_rules! gathered {
    ($($(#[$said:meta])* $name:ident: $shape:ty,)*) => {
        /// The public entries of one implementation.
        #[derive(Clone, Copy)]
        pub struct Entries {
            /// What this implementation is called in messages.
            pub title: &'static str,
            $($(#[$said])* pub $name: $shape,)*
        }

        /// The rules as they are written.
        pub const LITERAL: Entries = Entries { title: "literal", $($name: literal::$name::$name,)* };

        /// The same answers, built for speed.
        pub const FAST: Entries = Entries { title: "fast", $($name: fast::$name::$name,)* };
    };
}

pub mod fast;
pub mod literal;

entries!(gathered);
