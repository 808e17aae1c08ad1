//! Names as the rules give them, and as they come out where one of the rules is mistaken: so the faults of naming are made. Factors are
//! columns of any labels here; nothing is taken from the second implementation.

use reference::{Level, COLUMNS, PLOTS};

/// A rule of names taken wrongly.
#[derive(Clone, Copy, Debug, PartialEq, Eq)]
pub enum Mistake {
    /// None of them.
    None,
    /// No rule of suprema: `#` and the place.
    NoSupremum,
    /// Columns that are equivalent to the member are not looked at for a supremum.
    StrictlyFiner,
    /// A treatment member looks at treatment columns alone.
    OwnKind,
    /// A plot member looks at treatment columns too.
    BothKinds,
    /// The infimum of a treatment member looks at plot columns too.
    InfimumOfBothKinds,
    /// A treatment member that is equivalent to a plot column has that column's name alone.
    PlotColumnAlone,
    /// A supremum comes before an infimum.
    SupremumFirst,
    /// All columns that are finer are listed.
    AllListed,
    /// Columns are listed until their supremum is the member, and no more.
    UntilItFits,
    /// Columns with no strictly finer one among them are listed.
    FinestListed,
    /// Of equivalents the last is listed.
    LastOfEquivalents,
    /// Of an equivalent plot and treatment column the treatment column is listed; within a kind the first is.
    TreatmentOfEquivalents,
    /// All equivalents are listed.
    EquivalentsListed,
    /// Treatment columns are named before plot columns.
    TreatmentsFirst,
    /// The columns are named in the order of the first line.
    OrderOfTheLine,
    /// A member that has a finer column is called their supremum, whether or not it is.
    NotCompared,
    /// A supremum joins plots by one link of each column and not by chains.
    OneLink,
}

/// All mistakes, the right way first.
pub const MISTAKES: [(Mistake, &str); 18] = [
    (Mistake::None, "none"),
    (Mistake::NoSupremum, "a supremum named by its place"),
    (Mistake::StrictlyFiner, "only strictly finer columns looked at"),
    (Mistake::OwnKind, "columns of its own kind alone for a treatment member"),
    (Mistake::BothKinds, "treatment columns looked at for a plot member"),
    (Mistake::InfimumOfBothKinds, "the infimum of a treatment member over columns of both kinds"),
    (Mistake::PlotColumnAlone, "a plot column's name alone for a treatment member"),
    (Mistake::SupremumFirst, "a supremum before an infimum"),
    (Mistake::AllListed, "all finer columns listed"),
    (Mistake::UntilItFits, "no more columns listed than are needed"),
    (Mistake::FinestListed, "the finest columns of a supremum listed"),
    (Mistake::LastOfEquivalents, "the last of equivalents listed"),
    (Mistake::TreatmentOfEquivalents, "of an equivalent plot and treatment column the treatment listed"),
    (Mistake::EquivalentsListed, "all equivalents listed"),
    (Mistake::TreatmentsFirst, "treatment columns named before plot columns"),
    (Mistake::OrderOfTheLine, "columns named in the order of the first line"),
    (Mistake::NotCompared, "a supremum that is not the member"),
    (Mistake::OneLink, "a supremum by one link"),
];

/// A column that the first line counts.
struct Looked<'a> {
    name: &'a [u8],
    treatment: bool,
    /// Its field of the first line.
    field: usize,
    levels: &'a [Level],
}

/// For each plot the first one with its label.
fn firsts<T: PartialEq>(labels: &[T]) -> Vec<usize> {
    labels.iter().enumerate().map(|(u, label)| labels[..u].iter().position(|other| other == label).unwrap_or(u)).collect()
}

/// Whether plots that share a label of the first always share one of the second.
pub fn finer<T: PartialEq, S: PartialEq>(a: &[T], b: &[S]) -> bool {
    firsts(a).iter().enumerate().all(|(u, &first)| b[u] == b[first])
}

fn equivalent<T: PartialEq, S: PartialEq>(a: &[T], b: &[S]) -> bool {
    finer(a, b) && finer(b, a)
}

/// Plots share a number where they share all labels.
pub fn infimum<T: PartialEq>(columns: &[&[T]], plots: usize) -> Vec<usize> {
    let together = |u: usize, v: usize| columns.iter().all(|column| column[u] == column[v]);
    (0..plots).map(|u| (0..u).find(|&v| together(u, v)).unwrap_or(u)).collect()
}

/// Plots share a number where a chain joins them, each step within a class of one column; or, of one link, where one step of each column
/// after the other does.
pub fn supremum<T: PartialEq>(columns: &[&[T]], plots: usize, one_link: bool) -> Vec<usize> {
    let firsts: Vec<Vec<usize>> = columns.iter().map(|column| firsts(column)).collect();
    let mut numbers: Vec<usize> = (0..plots).collect();
    loop {
        let before = numbers.clone();
        for first in &firsts {
            // The least number within a class, for all of the class.
            let mut least: Vec<usize> = numbers.clone();
            (0..plots).for_each(|u| least[first[u]] = least[first[u]].min(numbers[u]));
            (0..plots).for_each(|u| numbers[u] = least[first[u]]);
        }
        if one_link || numbers == before {
            return numbers;
        }
    }
}

/// The columns that the first line counts, plot columns and then treatment columns. The line is in the form of one.
fn columns<'a>(text: &'a [u8], levels: &'a [Level], plots: usize) -> Vec<Looked<'a>> {
    let line = text.split(|&byte| byte == 10).next().unwrap_or(text);
    let mut found: Vec<Looked> = Vec::new();
    for (kind, treatment) in [(b'p', false), (b't', true)] {
        let fields = line.split(|&byte| byte == 9).enumerate().filter(|(_, field)| field[0] == kind);
        for (c, (field, title)) in fields.enumerate() {
            let first = PLOTS * (c + if treatment { COLUMNS } else { 0 });
            found.push(Looked { name: &title[2..], treatment, field, levels: &levels[first..first + plots] });
        }
    }
    found
}

/// The name of a member of a family, or what a mistake makes of it. All questions of naming have been passed.
pub fn name(text: &[u8], levels: &[Level], family: &[u8], plots: usize, kind: u32, place: usize, mistake: Mistake) -> Vec<u8> {
    let member = &family[PLOTS * (place - 1)..PLOTS * (place - 1) + plots];
    let classes = member.iter().copied().max().map_or(0, usize::from);
    if classes == 1 || classes == plots {
        return if classes == 1 { b"U".to_vec() } else { b"E".to_vec() };
    }
    let (all, treatment) = (columns(text, levels, plots), kind != 0);
    let every: Vec<&Looked> = all.iter().collect();
    let own: Vec<&Looked> = all.iter().filter(|one| one.treatment == treatment).collect();
    // All columns for a treatment member where this is the mistake, else those of the member's kind.
    let both = |mistaken: Mistake| if treatment && mistake == mistaken { &every } else { &own };
    let alone = own.iter().chain(both(Mistake::PlotColumnAlone));
    if let Some(one) = alone.copied().find(|one| equivalent(one.levels, member)) {
        return one.name.to_vec();
    }
    let looked = match mistake {
        Mistake::OwnKind => &own,
        Mistake::BothKinds => &every,
        _ if treatment => &every,
        _ => &own,
    };
    let (infimum, supremum) = (infimum_name(both(Mistake::InfimumOfBothKinds), member), supremum_name(looked, member, mistake));
    let listed = match mistake {
        Mistake::NoSupremum => infimum,
        Mistake::SupremumFirst => supremum.or(infimum),
        _ => infimum.or(supremum),
    };
    listed.unwrap_or_else(|| format!("#{place}").into_bytes())
}

/// The names of these columns with commas, in their order or in that of the mistake.
fn list(opening: &str, mut listed: Vec<&Looked>, mistake: Mistake) -> Vec<u8> {
    match mistake {
        Mistake::TreatmentsFirst => listed.sort_by_key(|one| !one.treatment),
        Mistake::OrderOfTheLine => listed.sort_by_key(|one| one.field),
        _ => {}
    }
    let names: Vec<&[u8]> = listed.iter().map(|one| one.name).collect();
    [opening.as_bytes(), &names.join(&b','), b")"].concat()
}

/// Those of some columns for which none of them is strictly finer; and, of equivalents, the first.
fn finest<'a>(among: &[&'a Looked<'a>]) -> Vec<&'a Looked<'a>> {
    let kept = |i: &usize| {
        let stands_for_it = |j: usize| finer(among[j].levels, among[*i].levels) && (j < *i || !finer(among[*i].levels, among[j].levels));
        !(0..among.len()).any(|j| j != *i && stands_for_it(j))
    };
    (0..among.len()).filter(kept).map(|i| among[i]).collect()
}

fn infimum_name(columns: &[&Looked], member: &[u8]) -> Option<Vec<u8>> {
    let among: Vec<&Looked> = columns.iter().copied().filter(|one| finer(member, one.levels)).collect();
    let levels: Vec<&[Level]> = among.iter().map(|one| one.levels).collect();
    let fits = equivalent(&infimum(&levels, member.len()), member);
    fits.then(|| list("I(", finest(&among), Mistake::None))
}

fn supremum_name(columns: &[&Looked], member: &[u8], mistake: Mistake) -> Option<Vec<u8>> {
    let strictly = mistake == Mistake::StrictlyFiner;
    let counted = |one: &&Looked| finer(one.levels, member) && !(strictly && finer(member, one.levels));
    let among: Vec<&Looked> = columns.iter().copied().filter(counted).collect();
    let is_supremum = |listed: &[&Looked]| {
        let levels: Vec<&[Level]> = listed.iter().map(|one| one.levels).collect();
        equivalent(&supremum(&levels, member.len(), mistake == Mistake::OneLink), member)
    };
    let fits = !among.is_empty() && (mistake == Mistake::NotCompared || is_supremum(&among));
    let listed = coarsest(&among, mistake);
    let needed = (1..=listed.len()).find(|&count| mistake == Mistake::UntilItFits && is_supremum(&listed[..count]));
    fits.then(|| list("S(", listed[..needed.unwrap_or(listed.len())].to_vec(), mistake))
}

/// Those of some columns for which none of them is strictly coarser; and, of equivalents, the first. Or as the mistake has it.
fn coarsest<'a>(among: &[&'a Looked<'a>], mistake: Mistake) -> Vec<&'a Looked<'a>> {
    if mistake == Mistake::FinestListed {
        return finest(among);
    }
    let stands_for_it = |i: usize, j: usize| {
        let (one, other) = (among[i], among[j]);
        if !equivalent(one.levels, other.levels) {
            return mistake != Mistake::AllListed && finer(one.levels, other.levels);
        }
        match mistake {
            Mistake::LastOfEquivalents => j > i,
            Mistake::EquivalentsListed => false,
            Mistake::TreatmentOfEquivalents if one.treatment != other.treatment => other.treatment,
            _ => j < i,
        }
    };
    let kept = |i: &usize| !(0..among.len()).any(|j| j != *i && stands_for_it(*i, j));
    (0..among.len()).filter(kept).map(|i| among[i]).collect()
}
