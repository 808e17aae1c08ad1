//! Names of members: questions 2, 3, 6, 7 and 15.

use super::design::{factors, no_level_missing, plot_cells, treatment_cells};
use super::factor::Factor;
use super::family::read;
use super::sheet::{has_length, headings, of_kind, Heading, Kind};
use crate::{Level, FAMILY, LEVELS, NAME, PLOTS};

/// A column with its name.
pub struct Column<'a> {
    name: &'a [u8],
    factor: Factor,
}

/// The columns that a family's members look at: "Plot members look at plot columns, treatment members at plot and then treatment
/// columns". Those of the family's own kind come last.
pub struct Columns<'a> {
    looked_at: Vec<Column<'a>>,
    /// How many of them are of the family's kind.
    own: usize,
}

impl<'a> Columns<'a> {
    /// The columns of the family's kind.
    fn of_its_kind(&self) -> &[Column<'a>] {
        &self.looked_at[self.looked_at.len() - self.own..]
    }
}

/// "A member is named by the first rule that fits".
pub fn member_name(columns: &Columns, member: &Factor, place: usize) -> Vec<u8> {
    if member.number_of_classes() == 1 {
        return b"U".to_vec();
    }
    if member.number_of_classes() == member.plots() {
        return b"E".to_vec();
    }
    let own = columns.of_its_kind();
    if let Some(column) = own.iter().find(|column| column.factor.is_equivalent(member)) {
        return column.name.to_vec();
    }
    let listed = infimum_name(own, member).or_else(|| supremum_name(&columns.looked_at, member));
    listed.unwrap_or_else(|| format!("#{place}").into_bytes())
}

/// "`I(` names `)` when it equals the infimum of all columns of its kind coarser than it, naming in column order, with
/// commas, only those with no strictly finer one among them (of equivalents the lowest)"
fn infimum_name(columns: &[Column], member: &Factor) -> Option<Vec<u8>> {
    let among: Vec<&Column> = columns.iter().filter(|column| member.is_finer_or_equivalent(&column.factor)).collect();
    let universal = Factor::universal(member.plots());
    let infimum = among.iter().fold(universal, |so_far, column| so_far.infimum(&column.factor));
    infimum.is_equivalent(member).then(|| list(b"I(", &among, |other, column| other.is_strictly_finer(column)))
}

/// "a member that equals the supremum of all columns finer than or equivalent to it, at least one, is written `S(` names `)`,
/// listing only those with no strictly coarser one among them, of equivalents the first"
fn supremum_name(columns: &[Column], member: &Factor) -> Option<Vec<u8>> {
    let among: Vec<&Column> = columns.iter().filter(|column| column.factor.is_finer_or_equivalent(member)).collect();
    let factors = among.iter().map(|column| column.factor.clone());
    let supremum = factors.reduce(|so_far, factor| so_far.supremum(&factor))?;
    supremum.is_equivalent(member).then(|| list(b"S(", &among, |other, column| column.is_strictly_finer(other)))
}

/// The names of the columns in whose place no other one stands and that are the first of equivalent ones, in their order and with commas.
fn list(opening: &[u8], among: &[&Column], instead: fn(&Factor, &Factor) -> bool) -> Vec<u8> {
    let listed = |i: &usize| {
        let factor = &among[*i].factor;
        let none_instead = !among.iter().any(|other| instead(&other.factor, factor));
        none_instead && !among[..*i].iter().any(|earlier| earlier.factor.is_equivalent(factor))
    };
    let names: Vec<&[u8]> = (0..among.len()).filter(listed).map(|i| among[i].name).collect();
    [opening, &names.join(&b','), b")"].concat()
}

/// The columns that a family of this kind looks at, as the first line counts them; None when a level is missing: "7 covers every
/// column looked at".
pub fn looked_at<'a>(headings: &'a [Heading], levels: &[Level], plots: usize, kind: Kind) -> Option<Columns<'a>> {
    let (mut names, treatments) = (of_kind(headings, Kind::Plot), of_kind(headings, Kind::Treatment));
    let mut cells = plot_cells(levels, names.len(), plots);
    let mut own = names.len();
    if kind == Kind::Treatment {
        own = treatments.len();
        cells.extend(treatment_cells(levels, own, plots));
        names.extend(treatments);
    }
    let columns = || names.into_iter().zip(factors(&cells)).map(|(name, factor)| Column { name, factor });
    no_level_missing(&cells).then(|| Columns { looked_at: columns().collect(), own })
}

/// "Naming also takes the sheet's text, uses its first line for the column names and column counts, and reads the columns in
/// the level table: it asks 2, 3, 6, 7 and 15 … It answers the name's length; bytes past the name are not touched."
#[allow(clippy::too_many_arguments)]
pub fn name(
    text: &[u8],
    levels: &[Level],
    family: &[u8],
    plots: usize,
    size: usize,
    kind: u32,
    place: usize,
    name: &mut [u8],
) -> (u32, [u64; 1]) {
    if !has_length(text) {
        return (2, [0]);
    }
    let Some((headings, _)) = headings(text) else {
        return (3, [0]);
    };
    let within = (1..=PLOTS).contains(&plots) && 1 <= place && place <= size;
    if !within || levels.len() < LEVELS || family.len() < FAMILY || name.len() < NAME {
        return (6, [0]);
    }
    let kind = if kind == 0 { Kind::Plot } else { Kind::Treatment };
    let Some(columns) = looked_at(&headings, levels, plots, kind) else {
        return (7, [0]);
    };
    let Some(members) = read(family, plots, size) else {
        return (15, [0]);
    };
    let answer = member_name(&columns, &members[place - 1], place);
    name[..answer.len()].copy_from_slice(&answer);
    (0, [answer.len() as u64])
}
