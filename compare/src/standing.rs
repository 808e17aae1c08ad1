//! How two factors stand as the rules have it, and as it comes out where one of the rules is mistaken: so the faults of comparing are made.
//! Factors are columns of any class numbers here; nothing is taken from the second implementation.

use crate::names::{finer, supremum};
use reference::Comparison;
use std::collections::BTreeMap;

/// A rule of comparing taken wrongly.
#[derive(Clone, Copy, Debug, PartialEq, Eq)]
pub enum Mistake {
    /// None of them.
    None,
    /// Finer and coarser are said of the second factor.
    Exchanged,
    /// Equivalent factors are finer: it is not asked whether this holds both ways.
    NotBothWays,
    /// Orthogonal is looked at before finer and coarser.
    OrthogonalFirst,
    /// Coarser is not looked at.
    NoCoarser,
    /// The number of plots in place of the size of K.
    AllPlots,
    /// K holds what one link joins, the second classes that meet the first one, and so an empty A∩B is fine.
    MeetingClasses,
    /// All A∩B inside K have to be of one size.
    OneSize,
}

/// All mistakes, the right way first.
pub const MISTAKES: [(Mistake, &str); 8] = [
    (Mistake::None, "none"),
    (Mistake::Exchanged, "finer and coarser exchanged"),
    (Mistake::NotBothWays, "equivalent answered as finer"),
    (Mistake::OrthogonalFirst, "orthogonal answered for a finer or coarser factor"),
    (Mistake::NoCoarser, "orthogonal answered for a coarser factor"),
    (Mistake::AllPlots, "the number of plots in place of the size of K"),
    (Mistake::MeetingClasses, "an empty A∩B taken as fine, with the classes that meet in place of K"),
    (Mistake::OneSize, "classes of proportional sizes taken as not orthogonal"),
];

/// How the first factor stands to the second, or what a mistake makes of it.
pub fn standing(first: &[u8], second: &[u8], mistake: Mistake) -> Comparison {
    let (fine, coarse) = (finer(first, second), finer(second, first));
    let orthogonal = || is_orthogonal(first, second, mistake);
    match mistake {
        Mistake::Exchanged if fine && !coarse => Comparison::Coarser,
        Mistake::Exchanged if coarse && !fine => Comparison::Finer,
        Mistake::OrthogonalFirst if !(fine && coarse) && orthogonal() => Comparison::Orthogonal,
        _ if fine && coarse && mistake != Mistake::NotBothWays => Comparison::Equivalent,
        _ if fine => Comparison::Finer,
        _ if coarse && mistake != Mistake::NoCoarser => Comparison::Coarser,
        _ if orthogonal() => Comparison::Orthogonal,
        _ => Comparison::NotOrthogonal,
    }
}

/// How often each value occurs.
fn counted<T: Ord>(values: impl Iterator<Item = T>) -> BTreeMap<T, usize> {
    let mut counts = BTreeMap::new();
    values.for_each(|value| *counts.entry(value).or_insert(0) += 1);
    counts
}

/// Whether two factors are orthogonal: for any two plots u and v of one class K of the supremum, A being the class of u in the first factor
/// and B that of v in the second, the size of A∩B × size of K = size of A × size of B.
fn is_orthogonal(first: &[u8], second: &[u8], mistake: Mistake) -> bool {
    let plots = first.len();
    let joined = supremum(&[first, second], plots, false);
    let (a, b, k) = (counted(first.iter()), counted(second.iter()), counted(joined.iter()));
    let cells = counted(first.iter().zip(second));
    let both = |u: usize, v: usize| cells.get(&(&first[u], &second[v])).copied().unwrap_or(0);
    // The plots of all second classes that meet the first class of a plot.
    let meeting = |u: usize| cells.keys().filter(|cell| *cell.0 == first[u]).map(|cell| b[cell.1]).sum::<usize>();
    let holds = |u: usize, v: usize| {
        let product = a[&first[u]] * b[&second[v]];
        match mistake {
            Mistake::AllPlots => both(u, v) * plots == product,
            Mistake::MeetingClasses => both(u, v) == 0 || both(u, v) * meeting(u) == product,
            Mistake::OneSize => both(u, v) == both(u, u) && both(v, u) == both(u, u),
            _ => both(u, v) * k[&joined[u]] == product,
        }
    };
    (0..plots).all(|u| (0..plots).filter(|&v| joined[v] == joined[u]).all(|v| holds(u, v)))
}
