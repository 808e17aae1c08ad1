//! The printed table.

use super::column::{Columns, Walk};
use super::design::Design;
use super::full_design::judge;
use super::name::{put, Namer};
use super::order::Family;
use super::sheet::Header;
use super::strata::places;
use super::work::with_work;
use crate::{COLUMNS, FAMILY, INTERACTIONS, LEVELS, MEMBERS, NAME, TABLE, TEXT};

/// The text so far.
struct Text<'a> {
    out: &'a mut [u8],
    length: usize,
}

impl Text<'_> {
    fn put(&mut self, bytes: &[u8]) {
        self.length = put(self.out, self.length, bytes);
    }

    /// A whole number in decimal.
    fn number(&mut self, value: i64) {
        let mut digits = [0; 20];
        let mut at = digits.len();
        let mut rest = value.unsigned_abs();
        loop {
            at -= 1;
            digits[at] = b'0' + (rest % 10) as u8;
            rest /= 10;
            if rest == 0 {
                break;
            }
        }
        if value < 0 {
            self.put(b"-");
        }
        self.put(&digits[at..]);
    }

    fn line(&mut self, stratum: &[u8], source: &[u8], degrees: i64) {
        self.put(stratum);
        self.put(b"\t");
        self.put(source);
        self.put(b"\t");
        self.number(degrees);
        self.put(b"\n");
    }

    fn refused(&mut self, number: u32, first: &[u8], second: &[u8]) {
        self.put(b"refused\t");
        self.number(i64::from(number));
        self.put(b"\t");
        self.put(first);
        self.put(b"\t");
        self.put(second);
        self.put(b"\n");
    }
}

/// A family in a buffer with what names its members.
struct Named<'a> {
    family: Family<'a>,
    namer: Namer<'a>,
}

impl Named<'_> {
    fn name<'b>(&self, i: usize, bytes: &'b mut [u8; NAME], walk: &mut Walk) -> &'b [u8] {
        let length = self.namer.write(self.family.column(i), self.family.classes[i], i + 1, bytes, walk);
        &bytes[..length]
    }
}

/// The one line of a refused design.
fn refused(text: &mut Text, design: &Design, plots: &Named, treatments: &Named, walk: &mut Walk) {
    let (mut first, mut second) = ([0; NAME], [0; NAME]);
    let (i, j) = (design.first.wrapping_sub(1), design.second.wrapping_sub(1));
    let (a, b): (&[u8], &[u8]) = match design.refusal {
        9 => (plots.name(i, &mut first, walk), b"-"),
        10 => (plots.name(i, &mut first, walk), plots.name(j, &mut second, walk)),
        12 => (treatments.name(i, &mut first, walk), treatments.name(j, &mut second, walk)),
        13 => (plots.name(i, &mut first, walk), treatments.name(j, &mut second, walk)),
        _ => (b"-", b"-"),
    };
    text.refused(design.refusal, a, b);
}

/// The table of an accepted design.
fn table(text: &mut Text, plots: &Named, treatments: &Named, walk: &mut Walk) {
    let Some((coarser, strata)) = places(&plots.family, &treatments.family) else {
        return text.refused(16, b"-", b"-");
    };
    let degrees = plots.family.degrees(&coarser);
    let treatment_degrees = treatments.family.degrees(&treatments.family.coarser());
    text.put(b"stratum\tsource\tdf\n");
    for i in 0..plots.family.size {
        let mut bytes = [0; NAME];
        let stratum = plots.name(i, &mut bytes, walk);
        let mut residual = degrees[i];
        let mut any = false;
        for j in (0..treatments.family.size).filter(|&j| usize::from(strata[j]) == i) {
            let mut bytes = [0; NAME];
            text.line(stratum, treatments.name(j, &mut bytes, walk), treatment_degrees[j]);
            residual -= treatment_degrees[j];
            any = true;
        }
        if any && residual != 0 {
            text.line(stratum, b"=residual", residual);
        }
        text.line(stratum, b"=total", degrees[i]);
    }
    text.line(b"=all", b"=total", plots.family.plots as i64);
}

/// Reads a sheet within the text's limits and prints its table or refusal.
fn print(sheet: &[u8], text: &mut Text) {
    let Some(header) = Header::read(sheet) else {
        return text.refused(3, b"-", b"-");
    };
    let mut levels = [0; LEVELS];
    let plots = match header.plot_lines(sheet, &mut levels) {
        Ok(plots) => plots,
        Err(refusal) => return text.refused(refusal, b"-", b"-"),
    };
    let of_plots = Columns::number(&levels, 0, header.plot_columns, plots);
    let of_treatments = Columns::number(&levels, COLUMNS, header.treatment_columns, plots);
    let (mut plot_buffer, mut treatment_buffer) = ([0; FAMILY], [0; FAMILY]);
    with_work(|work| {
        let design = judge(&of_plots, &of_treatments, INTERACTIONS, plots, &mut plot_buffer, &mut treatment_buffer, work);
        let walk = &mut work.walk;
        let kinds = [(header.names(false), &of_plots), (header.names(true), &of_treatments)];
        let named = |buffer, size, classes: [u8; MEMBERS], looked: usize| Named {
            family: Family { buffer, plots, size, classes },
            namer: Namer::new(kinds.into_iter().take(looked), plots),
        };
        let plot_family = named(&plot_buffer, design.plot_size, design.plot_classes, 1);
        let treatment_family = named(&treatment_buffer, design.treatment_size, design.treatment_classes, 2);
        if design.refusal == 0 {
            table(text, &plot_family, &treatment_family, walk);
        } else {
            refused(text, &design, &plot_family, &treatment_family, walk);
        }
    });
}

/// The program's output into a lent buffer.
pub fn skeleton(sheet: &[u8], out: &mut [u8]) -> (u32, u64) {
    if out.len() < TABLE {
        return (6, 0);
    }
    let mut text = Text { out, length: 0 };
    if (1..=TEXT).contains(&sheet.len()) {
        print(sheet, &mut text);
    } else {
        text.refused(2, b"-", b"-");
    }
    (0, text.length as u64)
}
