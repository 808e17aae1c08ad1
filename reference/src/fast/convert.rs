//! Conversion of a sheet numbered within parents.

use super::column::{Column, Columns, Walk};
use super::name::put;
use super::sheet::{put_number, put_titles, Header};
use super::work::with_work;
use crate::{COLUMNS, LEVELS, PLOTS, SHEET, TEXT};

/// For each field the plot column of its parent, where it has one.
type Parents = [Option<u8>; 2 * COLUMNS];

/// Question 23.
fn parents(header: &Header, names: &[&[u8]; 2 * COLUMNS]) -> Option<Parents> {
    let mut found = [None; 2 * COLUMNS];
    for field in (0..header.fields).filter(|&field| !names[field].is_empty()) {
        let left = (0..field).find(|&left| header.name(left) == names[field])?;
        found[field] = Some(header.columns[left]).filter(|&column| usize::from(column) < COLUMNS);
        found[field]?;
    }
    Some(found)
}

/// Puts the infimum with its parent in the place of each column that has one. The parents stand further left and are done before.
fn convert_columns(header: &Header, parents: &Parents, columns: &mut Columns, plots: usize, walk: &mut Walk) {
    for (field, parent) in parents.iter().enumerate() {
        let Some(parent) = parent.map(usize::from) else { continue };
        let child = usize::from(header.columns[field]);
        let [f, g] = [child, parent].map(|c| (&columns.columns[c][..plots], columns.classes[c]));
        walk.meet(f.0, f.1, g.0, g.1);
        columns.columns[child] = walk.infimum;
        columns.classes[child] = walk.cells as u8;
    }
}

/// The plot lines: fields of converted columns by their numbers, what stands between them as it is. Answers where they end.
fn put_lines(old: &[u8], converted: &[Option<&Column>], plots: usize, sheet: &mut [u8], mut at: usize) -> usize {
    let (mut kept, mut next) = (0, 0);
    for plot in 0..plots {
        for column in converted {
            let start = next;
            while old[next] >= b'0' {
                next += 1;
            }
            if let Some(column) = column {
                at = put(sheet, at, &old[kept..start]);
                at = put_number(sheet, at, column[plot]);
                kept = next;
            }
            next += 1;
        }
    }
    put(sheet, at, &old[kept..])
}

/// Converts a sheet within the text's limits; answers the length, or the refusal.
fn write(old: &[u8], sheet: &mut [u8]) -> Result<usize, u32> {
    let (header, names) = Header::read_old(old).ok_or(3u32)?;
    let mut levels = [0; LEVELS];
    let plots = header.plot_lines(old, &mut levels)?;
    let parents = parents(&header, &names).ok_or(23u32)?;
    if parents.iter().all(Option::is_none) {
        return Ok(put(sheet, 0, old));
    }
    let mut columns = Columns::number(&levels, 0, header.plot_columns, plots);
    with_work(|work| convert_columns(&header, &parents, &mut columns, plots, &mut work.walk));
    let mut converted: [Option<&[u8; PLOTS]>; 2 * COLUMNS] = [None; 2 * COLUMNS];
    for field in (0..header.fields).filter(|&field| parents[field].is_some()) {
        converted[field] = Some(&columns.columns[usize::from(header.columns[field])]);
    }
    let mark = |field: usize| if usize::from(header.columns[field]) < COLUMNS { b"p:" } else { b"t:" };
    let at = put_titles(sheet, (0..header.fields).map(|field| (mark(field), header.name(field))));
    Ok(put_lines(&old[header.length..], &converted[..header.fields], plots, sheet, at))
}

/// The converted sheet into a lent buffer.
pub fn convert(old: &[u8], sheet: &mut [u8]) -> (u32, [u64; 1]) {
    if sheet.len() < SHEET {
        return (6, [0]);
    }
    if !(1..=TEXT).contains(&old.len()) {
        return (2, [0]);
    }
    match write(old, sheet) {
        Err(refusal) => (refusal, [0]),
        Ok(length) => (0, [length as u64]),
    }
}
