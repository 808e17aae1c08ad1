//! Conversion of a sheet whose levels are numbered anew within each level of a parent: questions 6, 2 to 5 and 23.

use super::factor::Factor;
use super::read_sheet::plot_lines;
use super::sheet::{fields, first_line, has_length, heading, is_name, lend, stand_together, written, Heading, Kind};
use crate::{Level, PLOTS};

/// A field of an old sheet's first line: what a sheet has there, and the name of the parent.
struct Old {
    heading: Heading,
    parent: Option<Vec<u8>>,
}

/// "written `p:Section/Bench`, the part after `/`, in a name's form": a plot column alone may have it, and once.
fn old_heading(field: &[u8]) -> Option<Old> {
    let Some(slash) = field.iter().position(|&byte| byte == b'/') else {
        return Some(Old { heading: heading(field)?, parent: None });
    };
    let (heading, parent) = (heading(&field[..slash])?, &field[slash + 1..]);
    (heading.kind == Kind::Plot && is_name(parent)).then(|| Old { heading, parent: Some(parent.to_vec()) })
}

/// "Questions 2 to 5 are asked of the old sheet with this one addition to its header": question 3. The fields of the first line and what
/// follows it, or None.
fn old_headings(text: &[u8]) -> Option<(Vec<Old>, &[u8])> {
    let (line, rest) = first_line(text)?;
    let found: Vec<Old> = fields(line).into_iter().map(old_heading).collect::<Option<_>>()?;
    let headings: Vec<Heading> = found.iter().map(|old| old.heading.clone()).collect();
    stand_together(&headings).then_some((found, rest))
}

/// "naming a plot column further left": the place of that column among the fields.
fn further_left(fields: &[Old], field: usize, parent: &[u8]) -> Option<usize> {
    (0..field).find(|&left| fields[left].heading.kind == Kind::Plot && fields[left].heading.name == parent)
}

/// "23, after 5, when a parent isn't a plot column further left." For each field the place of its parent, where it has one; or None.
fn parents(fields: &[Old]) -> Option<Vec<Option<usize>>> {
    let place = |(field, old): (usize, &Old)| match &old.parent {
        None => Some(None),
        Some(parent) => further_left(fields, field, parent).map(Some),
    };
    fields.iter().enumerate().map(place).collect()
}

/// "the column becomes the infimum of itself and its converted parent, levels by first appearance .. Columns without a slash are
/// copied." Parents stand further left, so they are converted first.
fn convert_columns(lines: &[Vec<Level>], parents: &[Option<usize>]) -> Vec<Vec<Level>> {
    let mut columns: Vec<Vec<Level>> = Vec::new();
    for (field, parent) in parents.iter().enumerate() {
        let column: Vec<Level> = lines.iter().map(|line| line[field]).collect();
        columns.push(match parent {
            None => column,
            Some(parent) => {
                let infimum = Factor::of_labels(&column).infimum(&Factor::of_labels(&columns[*parent]));
                infimum.numbers().into_iter().map(Level::from).collect()
            }
        });
    }
    columns
}

/// The converted sheet, or the refusal: "Questions 2 to 5", then 23.
fn converted(old: &[u8]) -> Result<Vec<u8>, u32> {
    if !has_length(old) {
        return Err(2);
    }
    let (fields, rest) = old_headings(old).ok_or(3u32)?;
    let lines = plot_lines(rest, fields.len()).ok_or(4u32)?;
    if !(1..=PLOTS).contains(&lines.len()) {
        return Err(5);
    }
    let parents = parents(&fields).ok_or(23u32)?;
    // "the slash part dropped"
    let headings: Vec<Heading> = fields.into_iter().map(|old| old.heading).collect();
    Ok(written(&headings, &convert_columns(&lines, &parents)))
}

/// "Older sheets number sections anew on each bench .. Convert them": the converted sheet into a lent buffer.
pub fn convert(old: &[u8], sheet: &mut [u8]) -> (u32, [u64; 1]) {
    lend(sheet, || converted(old))
}
