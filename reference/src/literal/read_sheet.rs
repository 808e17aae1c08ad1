//! The reader: questions 1 to 5.

use super::sheet::{fields, first_line, has_length, headings, of_kind, Heading, Kind};
use crate::{Level, COLUMNS, LEVELS, PLOTS};

/// "a decimal level .. without leading zeros", "1 to 4294967295"
fn level(field: &[u8]) -> Option<Level> {
    let digits = !field.is_empty() && field.iter().all(|byte| byte.is_ascii_digit());
    if !digits || field[0] == b'0' {
        return None;
    }
    // A number that has no room in 64 bits is above every level.
    let number = field.iter().try_fold(0u64, |value, byte| value.checked_mul(10)?.checked_add(u64::from(byte - b'0')))?;
    if (1..=4_294_967_295).contains(&number) { Level::try_from(number).ok() } else { None }
}

/// "Each later line is one plot: as many fields as the first line" (question 4, of one line)
fn plot_line(line: &[u8], columns: usize) -> Option<Vec<Level>> {
    let levels: Vec<Level> = fields(line).into_iter().map(level).collect::<Option<_>>()?;
    (levels.len() == columns).then_some(levels)
}

/// "Does every later line have it?" (question 4) The levels of all plot lines, or None.
pub fn plot_lines(mut rest: &[u8], columns: usize) -> Option<Vec<Vec<Level>>> {
    let mut lines = Vec::new();
    while !rest.is_empty() {
        let (line, after) = first_line(rest)?;
        lines.push(plot_line(line, columns)?);
        rest = after;
    }
    Some(lines)
}

/// "For every text the reader answers the three counts or one refusal: the counts are plots, plot columns and treatment
/// columns. Cells that no plot or column uses are not touched."
pub fn read_sheet(text: &[u8], levels: &mut [Level]) -> (u32, [u64; 3]) {
    if levels.len() < LEVELS {
        return (1, [0; 3]);
    }
    if !has_length(text) {
        return (2, [0; 3]);
    }
    let Some((headings, rest)) = headings(text) else {
        return (3, [0; 3]);
    };
    let Some(lines) = plot_lines(rest, headings.len()) else {
        return (4, [0; 3]);
    };
    if !(1..=PLOTS).contains(&lines.len()) {
        return (5, [0; 3]);
    }
    write_levels(&headings, &lines, levels);
    let counts = [lines.len(), of_kind(&headings, Kind::Plot).len(), of_kind(&headings, Kind::Treatment).len()];
    (0, counts.map(|count| count as u64))
}

/// "plot columns take c = 0 to 5 and treatment columns c = 6 to 11, each kind in sheet order"
fn write_levels(headings: &[Heading], lines: &[Vec<Level>], levels: &mut [Level]) {
    for (field, heading) in headings.iter().enumerate() {
        let earlier = of_kind(&headings[..field], heading.kind).len();
        let column = if heading.kind == Kind::Plot { earlier } else { COLUMNS + earlier };
        for (plot, line) in lines.iter().enumerate() {
            levels[PLOTS * column + plot] = line[field];
        }
    }
}
