//! Makes a call that shows a difference smaller, as long as it still shows one.

use crate::call::Call;
use reference::{Level, COLUMNS, FAMILY, LEVELS, MEMBERS, NAME, PLOTS, SHEET, TABLE};

/// So many smaller calls are tried at most.
const TRIES: usize = 5000;

/// Most fields of a line.
const FIELDS: usize = 2 * COLUMNS;

/// One way to make a call smaller; nothing where it makes no sense.
pub type Step = Box<dyn Fn(&mut Call) -> Option<()>>;

/// The ways of one sort that a call offers. An entry names those that it has a use for; one of its own can stand in its module.
pub type Steps = fn(&Call) -> Vec<Step>;

/// For entries that take every sort of part.
pub const ALL: &[Steps] = &[counts, lines, columns, members, plots, lent, tables, bytes];
/// For entries that take a text.
pub const TEXT: &[Steps] = &[counts, lines, lent, bytes];
/// For entries that take a level table.
pub const LEVELS_OF_PLOTS: &[Steps] = &[counts, columns, plots, lent, tables];
/// For entries that take families.
pub const FAMILIES: &[Steps] = &[counts, members, plots, lent, tables];
/// For entries that take one column and the number of plots to stop after.
pub const COLUMN: &[Steps] = &[stops, cells];

/// The smallest call found for which `differs` still holds.
pub fn shrink(call: &Call, differs: &dyn Fn(&Call) -> bool) -> Call {
    let (mut best, mut size) = (call.clone(), measure(call));
    let mut tries = 0;
    loop {
        let before = size;
        for step in best.entry.steps.iter().flat_map(|steps| steps(&best)).collect::<Vec<Step>>() {
            let mut smaller = best.clone();
            if step(&mut smaller).is_none() || measure(&smaller) >= size {
                continue;
            }
            tries += 1;
            if differs(&smaller) {
                (size, best) = (measure(&smaller), smaller);
            }
            if tries == TRIES {
                return best;
            }
        }
        if size == before {
            return best;
        }
    }
}

/// How large a call is: what is to be read by whoever looks for the reason.
fn measure(call: &Call) -> usize {
    let mut call = call.clone();
    let counts = call.counts().into_iter().filter(|(word, _)| *word != "lent").flat_map(|(_, counts)| counts.to_vec());
    let counts: usize = counts.map(|count| count.min(1000)).sum();
    let lent: usize = call.lent.iter().sum();
    let texts: usize = call.texts().iter().map(|(_, text)| text.len()).sum();
    let tables: usize = call.tables().iter().map(|(_, table)| table.length() + table.changes()).sum();
    let wide = call.levels.iter().filter(|&&level| level > PLOTS as Level).count();
    8 * texts + 4 * counts + lent + tables + wide
}

/// Pieces of a whole, the large ones first.
pub fn pieces(whole: usize) -> Vec<(usize, usize)> {
    let mut found = Vec::new();
    let mut size = whole;
    while size > 0 {
        found.extend((0..whole).step_by(size).map(|from| (from, size.min(whole - from))).rev());
        size /= 2;
    }
    found
}

/// A step as it is kept.
pub fn step(run: impl Fn(&mut Call) -> Option<()> + 'static) -> Step {
    Box::new(run)
}

/// k, kind and place as small as they go.
pub fn counts(_: &Call) -> Vec<Step> {
    vec![step(|call| {
        (call.k, call.kind, call.place) = (call.k.min(1), call.kind.min(1), call.place.min(1));
        Some(())
    })]
}

/// Lines of a text, a field of every line, all lines that share a field.
pub fn lines(call: &Call) -> Vec<Step> {
    call.clone().texts().iter().enumerate().flat_map(|(which, (_, text))| lines_of(which, text)).collect()
}

fn lines_of(which: usize, text: &[u8]) -> Vec<Step> {
    let lengths: Vec<usize> = text.split_inclusive(|&byte| byte == 10).map(<[u8]>::len).collect();
    let part = |(from, count): (usize, usize)| {
        let [start, length] = [&lengths[..from], &lengths[from..from + count]].map(|lengths| lengths.iter().sum());
        drop_bytes(which, start, length)
    };
    let mut found: Vec<Step> = pieces(lengths.len()).into_iter().map(part).collect();
    found.extend((0..FIELDS).map(|field| changed_text(which, move |text| Some(without_field(text, field)))));
    let shared = |i: usize| changed_text(which, move |text| without_lines(text, i % FIELDS, i / FIELDS));
    found.extend((0..FIELDS * lengths.len().min(PLOTS)).map(shared));
    found
}

/// Bytes of a short text.
pub fn bytes(call: &Call) -> Vec<Step> {
    let mut call = call.clone();
    let short = call.texts().into_iter().map(|(_, text)| text.len()).enumerate().filter(|(_, length)| *length < 400);
    let parts = |(which, length)| pieces(length).into_iter().map(move |(from, count)| drop_bytes(which, from, count));
    short.flat_map(parts).collect()
}

/// Another text in the place of one.
pub fn changed_text(which: usize, change: impl Fn(&[u8]) -> Option<Vec<u8>> + 'static) -> Step {
    step(move |call| {
        let text = &mut *call.texts()[which].1;
        *text = change(text)?;
        Some(())
    })
}

fn drop_bytes(which: usize, from: usize, count: usize) -> Step {
    changed_text(which, move |text| Some([text.get(..from)?, text.get(from + count..)?].concat()))
}

/// A column of a kind.
pub fn columns(_: &Call) -> Vec<Step> {
    (0..2 * COLUMNS).map(|c| step(move |call| drop_column(call, c / COLUMNS, c % COLUMNS))).collect()
}

/// A member of a family.
pub fn members(_: &Call) -> Vec<Step> {
    (0..2 * MEMBERS).map(|i| step(move |call| drop_member(call, i / MEMBERS, i % MEMBERS))).collect()
}

/// Plots, in the level table and in the families: all that share this plot's level in a column, so that a design that is balanced stays
/// so; some that follow each other. Then levels numbered by first appearance, and plots in the order of their levels.
pub fn plots(call: &Call) -> Vec<Step> {
    if call.plots > PLOTS {
        return Vec::new();
    }
    let class = |i: usize| step(move |call| drop_class(call, i % FIELDS, i / FIELDS));
    let mut found: Vec<Step> = (0..FIELDS * call.plots).map(class).collect();
    found.extend(pieces(call.plots).into_iter().map(|(from, count)| step(move |call| drop_plots(call, from, count))));
    found.push(step(|call| {
        call.levels.chunks_mut(PLOTS).for_each(renumber);
        Some(())
    }));
    found.push(step(sort));
    found
}

/// An earlier stop in a column, at most one plot past its end.
pub fn stops(call: &Call) -> Vec<Step> {
    let earlier = |stop: usize| {
        step(move |call| {
            call.plots = stop;
            Some(())
        })
    };
    (0..=call.levels.len() + 1).map(earlier).collect()
}

/// Plots of a column that follow each other: without them, the stop as many earlier as stood before it, or with one level for all of
/// them. Then levels numbered by first appearance.
pub fn cells(call: &Call) -> Vec<Step> {
    let parts = pieces(call.levels.len());
    let dropped = |&(from, count): &(usize, usize)| step(move |call| drop_cells(call, from, count));
    let alike = |&(from, count): &(usize, usize)| {
        step(move |call| {
            let cells = call.levels.get_mut(from..from + count)?;
            cells.fill(cells[0]);
            Some(())
        })
    };
    let mut found: Vec<Step> = parts.iter().map(dropped).chain(parts.iter().map(alike)).collect();
    found.push(step(|call| {
        renumber(&mut call.levels);
        Some(())
    }));
    found
}

/// Another length of what is lent for writing.
pub fn lent(_: &Call) -> Vec<Step> {
    let shorter = |which: usize, length: usize| {
        step(move |call| {
            call.lent[which] = length;
            Some(())
        })
    };
    [0, NAME, FAMILY, LEVELS, TABLE, SHEET].into_iter().flat_map(|length| [shorter(0, length), shorter(1, length)]).collect()
}

/// Another length of a table, rows of it set to 0, cells past the plots set to 0.
pub fn tables(call: &Call) -> Vec<Step> {
    let rows: Vec<usize> = call.clone().tables().iter().map(|(_, table)| table.length().div_ceil(PLOTS)).collect();
    let cut = |which: usize, length: usize| {
        step(move |call| {
            call.tables()[which].1.cut(length);
            Some(())
        })
    };
    let clear = |which: usize, from: usize, count: usize| {
        step(move |call| {
            call.tables()[which].1.clear(from, count);
            Some(())
        })
    };
    let used = call.plots.min(PLOTS);
    let mut found = Vec::new();
    for length in [0, LEVELS, FAMILY] {
        found.extend((0..rows.len()).map(|which| cut(which, length)));
    }
    for (which, rows) in rows.into_iter().enumerate() {
        found.extend(pieces(rows).into_iter().map(|(from, count)| clear(which, PLOTS * from, PLOTS * count)));
        found.extend((0..rows).map(|row| clear(which, PLOTS * row + used, PLOTS - used)));
    }
    found
}

pub fn drop_plots(call: &mut Call, from: usize, count: usize) -> Option<()> {
    if call.plots > PLOTS || from + count > call.plots {
        return None;
    }
    let kept: Vec<usize> = (0..call.plots).filter(|&u| u < from || u >= from + count).collect();
    choose_plots(call, &kept);
    Some(())
}

fn drop_cells(call: &mut Call, from: usize, count: usize) -> Option<()> {
    call.levels.get(from..from + count)?;
    call.levels.drain(from..from + count);
    call.plots -= call.plots.clamp(from, from + count) - from;
    Some(())
}

/// These plots in this order, in every table; the others are dropped.
fn choose_plots(call: &mut Call, chosen: &[usize]) {
    let plots = call.plots;
    call.tables().into_iter().for_each(|(_, table)| table.choose(plots, chosen));
    call.plots = chosen.len();
}

fn drop_class(call: &mut Call, c: usize, u: usize) -> Option<()> {
    if call.plots > PLOTS || u >= call.plots || call.levels.len() < PLOTS * (c + 1) {
        return None;
    }
    let column = &call.levels[PLOTS * c..PLOTS * (c + 1)];
    if column[..u].contains(&column[u]) {
        return None;
    }
    let kept: Vec<usize> = (0..call.plots).filter(|&v| column[v] != column[u]).collect();
    choose_plots(call, &kept);
    Some(())
}

fn sort(call: &mut Call) -> Option<()> {
    if call.plots > PLOTS || call.levels.len() < LEVELS {
        return None;
    }
    let mut order: Vec<usize> = (0..call.plots).collect();
    order.sort_by_key(|&u| (0..FIELDS).map(|c| call.levels[PLOTS * c + u]).collect::<Vec<Level>>());
    choose_plots(call, &order);
    Some(())
}

/// Numbers by first appearance; 0 stays.
fn renumber(column: &mut [Level]) {
    let mut seen: Vec<Level> = vec![0];
    for cell in column {
        let found = seen.iter().position(|level| level == cell);
        if found.is_none() {
            seen.push(*cell);
        }
        *cell = found.unwrap_or(seen.len() - 1) as Level;
    }
}

/// The text without the lines that share a field with the one given; the first line stays.
fn without_lines(text: &[u8], field: usize, line: usize) -> Option<Vec<u8>> {
    let lines: Vec<&[u8]> = text.split_inclusive(|&byte| byte == 10).collect();
    let of = |line: &[u8]| line.split(|&byte| byte == 9 || byte == 10).nth(field).map(<[u8]>::to_vec);
    let wanted = of(lines.get(line)?)?;
    if line == 0 || lines[1..line].iter().any(|earlier| of(earlier).as_ref() == Some(&wanted)) {
        return None;
    }
    let kept = lines.iter().enumerate().filter(|(i, line)| *i == 0 || of(line).as_ref() != Some(&wanted));
    Some(kept.flat_map(|(_, line)| line.to_vec()).collect())
}

fn drop_column(call: &mut Call, kind: usize, c: usize) -> Option<()> {
    if c >= call.columns[kind] || call.levels.len() < LEVELS {
        return None;
    }
    let columns = &mut call.levels[PLOTS * COLUMNS * kind..PLOTS * COLUMNS * (kind + 1)];
    columns.copy_within(PLOTS * (c + 1).., PLOTS * c);
    columns[PLOTS * (COLUMNS - 1)..].fill(0);
    call.columns[kind] -= 1;
    Some(())
}

fn drop_member(call: &mut Call, which: usize, i: usize) -> Option<()> {
    let family = &mut call.families[which];
    if i >= call.sizes[which] || PLOTS * (i + 1) > family.len() {
        return None;
    }
    family.copy_within(PLOTS * (i + 1).., PLOTS * i);
    let end = family.len();
    family[end - PLOTS..].fill(0);
    call.sizes[which] -= 1;
    // A place behind it stays that of the same member.
    call.places[which] -= usize::from(call.places[which] > i + 1);
    Some(())
}

/// The text without one field of every line.
fn without_field(text: &[u8], field: usize) -> Vec<u8> {
    let line = |line: &[u8]| -> Vec<u8> {
        let body = line.strip_suffix(b"\n").unwrap_or(line);
        let kept: Vec<&[u8]> = body.split(|&byte| byte == 9).enumerate().filter(|(i, _)| *i != field).map(|(_, part)| part).collect();
        let mut found = kept.join(&9);
        found.extend(&line[body.len()..]);
        found
    };
    text.split_inclusive(|&byte| byte == 10).flat_map(line).collect()
}
