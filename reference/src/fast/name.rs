//! Names of members: questions 2, 3, 6, 7 and 15.

use super::column::{is_finer, leaders, refines, Column, Columns, Walk};
use super::design::no_level_missing;
use super::order::{ones, Family};
use super::sheet::Header;
use super::work::with_work;
use crate::{Level, COLUMNS, FAMILY, LEVELS, NAME, PLOTS, TEXT};
use std::cell::OnceCell;

/// Most columns that are looked at.
const LOOKED: usize = 2 * COLUMNS;

/// The names and the columns of one kind.
pub type Kind<'a> = ([&'a [u8]; COLUMNS], &'a Columns);

/// A column that is looked at.
#[derive(Clone, Copy)]
struct Looked<'a> {
    name: &'a [u8],
    column: &'a [u8],
    classes: u8,
}

/// For each column a word of columns that stand in its place in a list.
type Instead = [u32; LOOKED];

/// The columns that the members of a family look at, ready for naming: those of its own kind come last.
pub struct Namer<'a> {
    looked: [Looked<'a>; LOOKED],
    /// The first of the family's own kind, and how many there are in all.
    own: usize,
    count: usize,
    plots: usize,
    /// Of the family's kind: strictly finer ones, and earlier ones equivalent to it.
    finer: OnceCell<Instead>,
    /// Strictly coarser ones, and earlier ones equivalent to it.
    coarser: OnceCell<Instead>,
}

impl<'a> Namer<'a> {
    /// From the kinds of columns that are looked at, the family's own kind last.
    pub fn new(kinds: impl Iterator<Item = Kind<'a>>, plots: usize) -> Namer<'a> {
        let none = Looked { name: &[], column: &[], classes: 0 };
        let (finer, coarser) = (OnceCell::new(), OnceCell::new());
        let mut namer = Namer { looked: [none; LOOKED], own: 0, count: 0, plots, finer, coarser };
        for (names, columns) in kinds {
            namer.own = namer.count;
            for c in 0..columns.count {
                let column = &columns.columns[c][..plots];
                namer.looked[namer.count] = Looked { name: names[c], column, classes: columns.classes[c] };
                namer.count += 1;
            }
        }
        namer
    }

    /// For each column from a first one on those that stand in its place: strictly finer or strictly coarser ones, and earlier ones
    /// equivalent to it.
    fn instead(&self, first: usize, finer: bool) -> Instead {
        let mut words = [0; LOOKED];
        for fine in first..self.count {
            for coarse in first..self.count {
                let [f, c] = [fine, coarse].map(|c| &self.looked[c]);
                if fine == coarse || f.classes < c.classes || !refines(f.column, c.column) {
                    continue;
                }
                let by_rank = if finer { (coarse, fine) } else { (fine, coarse) };
                let (dropped, kept) = if f.classes == c.classes { (fine.max(coarse), fine.min(coarse)) } else { by_rank };
                words[dropped] |= 1 << kept;
            }
        }
        words
    }

    /// Writes the name of a member at the beginning of the bytes; answers its length.
    pub fn write(&self, member: &[u8], classes: u8, place: usize, name: &mut [u8], walk: &mut Walk) -> usize {
        if classes == 1 {
            return put(name, 0, b"U");
        }
        if usize::from(classes) == self.plots {
            return put(name, 0, b"E");
        }
        let own = &self.looked[self.own..self.count];
        if let Some(one) = own.iter().find(|one| one.classes == classes && one.column == member) {
            return put(name, 0, one.name);
        }
        match self.infimum(member, classes, walk) {
            0 => {}
            listed => return self.list(b"I(", listed, name),
        }
        match self.supremum(member, classes, walk) {
            0 => number(name, place),
            listed => self.list(b"S(", listed, name),
        }
    }

    /// The columns that an `I(` lists, a bit each; 0 when the member is not the infimum of its coarser columns. One plot of
    /// each class tells: the columns have to part them all.
    fn infimum(&self, member: &[u8], classes: u8, walk: &mut Walk) -> u32 {
        let first = leaders(member);
        let coarser = |c: &usize| self.looked[*c].classes < classes && is_finer(&first, self.looked[*c].column);
        let among = word((self.own..self.count).filter(coarser));
        if among == 0 {
            return 0;
        }
        let instead = self.finer.get_or_init(|| self.instead(self.own, true));
        let listed = word(ones(among).filter(|&c| instead[c] & among == 0));
        let count = usize::from(classes);
        let mut plots = [0u8; PLOTS];
        let mut next = 0;
        for (plot, &class) in member.iter().enumerate() {
            if usize::from(class) > next {
                plots[next] = plot as u8;
                next += 1;
            }
        }
        let (mut infimum, mut parted): (Column, u8) = ([1; PLOTS], 1);
        for c in ones(listed) {
            let one = &self.looked[c];
            let mut column = [0; PLOTS];
            for (number, &plot) in column[..count].iter_mut().zip(&plots) {
                *number = one.column[usize::from(plot)];
            }
            walk.meet(&infimum[..count], parted, &column[..count], one.classes);
            (infimum, parted) = (walk.infimum, walk.cells as u8);
        }
        if parted == classes {
            listed
        } else {
            0
        }
    }

    /// The columns that an `S(` lists, a bit each; 0 when the member is not the supremum of its finer columns. A column of
    /// single plots is never listed and joins nothing, so it is left out.
    fn supremum(&self, member: &[u8], classes: u8, walk: &mut Walk) -> u32 {
        let finer = |c: &usize| {
            let one = &self.looked[*c];
            classes <= one.classes && usize::from(one.classes) < self.plots && refines(one.column, member)
        };
        let among = word((0..self.count).filter(finer));
        if among == 0 || !self.join(among, classes, walk) {
            return 0;
        }
        let instead = self.coarser.get_or_init(|| self.instead(0, false));
        word(ones(among).filter(|&c| instead[c] & among == 0))
    }

    /// Whether the supremum of these columns has so many classes, which is the least that it can have.
    fn join(&self, among: u32, classes: u8, walk: &mut Walk) -> bool {
        let first = among.trailing_zeros() as usize;
        let (mut supremum, mut joined) = ([0; PLOTS], self.looked[first].classes);
        supremum[..self.plots].copy_from_slice(self.looked[first].column);
        for c in ones(among).skip(1) {
            if joined == classes {
                break;
            }
            let one = &self.looked[c];
            walk.meet(&supremum[..self.plots], joined, one.column, one.classes);
            walk.join(joined);
            let before = supremum;
            walk.supremum(&before[..self.plots], &mut supremum);
            joined = walk.joined as u8;
        }
        joined == classes
    }

    fn list(&self, opening: &[u8], listed: u32, name: &mut [u8]) -> usize {
        let mut length = put(name, 0, opening);
        for (i, c) in ones(listed).enumerate() {
            if i > 0 {
                length = put(name, length, b",");
            }
            length = put(name, length, self.looked[c].name);
        }
        put(name, length, b")")
    }
}

/// A bit for each of these.
fn word(columns: impl Iterator<Item = usize>) -> u32 {
    columns.fold(0, |word, c| word | 1 << c)
}

/// Puts bytes at a place; answers where they end.
#[inline]
pub fn put(out: &mut [u8], at: usize, bytes: &[u8]) -> usize {
    out[at..at + bytes.len()].copy_from_slice(bytes);
    at + bytes.len()
}

/// `#` and the place, at most 32, in decimal.
fn number(name: &mut [u8], place: usize) -> usize {
    let length = put(name, 0, b"#");
    if place < 10 {
        return put(name, length, &[b'0' + place as u8]);
    }
    put(name, length, &[b'0' + (place / 10) as u8, b'0' + (place % 10) as u8])
}

/// The name of a member of a family already made.
#[allow(clippy::too_many_arguments)]
pub fn name(
    text: &[u8],
    levels: &[Level],
    family: &[u8],
    plots: usize,
    size: usize,
    kind: u32,
    place: usize,
    name: &mut [u8],
) -> (u32, [u64; 1]) {
    if !(1..=TEXT).contains(&text.len()) {
        return (2, [0]);
    }
    let Some(header) = Header::read(text) else {
        return (3, [0]);
    };
    let within = (1..=PLOTS).contains(&plots) && 1 <= place && place <= size;
    if !within || levels.len() < LEVELS || family.len() < FAMILY || name.len() < NAME {
        return (6, [0]);
    }
    let (treatment, plot_columns, treatment_columns) = (kind != 0, header.plot_columns, header.treatment_columns);
    let none_missing = |first, count| no_level_missing(levels, first, count, plots);
    if !none_missing(0, plot_columns) || treatment && !none_missing(COLUMNS, treatment_columns) {
        return (7, [0]);
    }
    let Some(family) = Family::read(family, plots, size) else {
        return (15, [0]);
    };
    let of_plots = Columns::number(levels, 0, plot_columns, plots);
    let of_treatments = treatment.then(|| Columns::number(levels, COLUMNS, treatment_columns, plots));
    let looked = [Some((header.names(false), &of_plots)), of_treatments.as_ref().map(|columns| (header.names(true), columns))];
    let namer = Namer::new(looked.into_iter().flatten(), plots);
    let classes = family.classes[place - 1];
    let length = with_work(|work| namer.write(family.column(place - 1), classes, place, name, &mut work.walk));
    (0, [length as u64])
}
