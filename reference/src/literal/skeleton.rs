//! The skeleton program: from a sheet's text to the printed table.

use super::degrees::degrees;
use super::full_design::full_design;
use super::name::name;
use super::read_sheet::read_sheet;
use super::strata::strata;
use crate::{Level, FAMILY, LEVELS, MEMBERS, NAME, TABLE};

/// "with k = 6"
const K: usize = 6;

/// A sheet that was read and its design, accepted or refused.
struct Trial<'a> {
    text: &'a [u8],
    levels: Vec<Level>,
    plots: usize,
    plot_family: Vec<u8>,
    treatment_family: Vec<u8>,
    plot_size: usize,
    treatment_size: usize,
}

impl Trial<'_> {
    fn plot_name(&self, place: usize) -> String {
        self.name(&self.plot_family, self.plot_size, 0, place)
    }

    fn treatment_name(&self, place: usize) -> String {
        self.name(&self.treatment_family, self.treatment_size, 1, place)
    }

    fn name(&self, family: &[u8], size: usize, kind: u32, place: usize) -> String {
        let mut bytes = [0; NAME];
        let (_, [length]) = name(self.text, &self.levels, family, self.plots, size, kind, place, &mut bytes);
        String::from_utf8_lossy(&bytes[..length as usize]).into_owned()
    }
}

/// "Every line has its fields parted by one tab and ends with byte 10."
fn line(fields: [&str; 3]) -> String {
    format!("{}\t{}\t{}\n", fields[0], fields[1], fields[2])
}

/// "On a refusal it prints one line instead: `refused`, the number, and two names, `-` where there is none."
fn refused(number: u32, first: &str, second: &str) -> String {
    format!("refused\t{number}\t{first}\t{second}\n")
}

/// The refusal of a design: "Refusals 9, 10, 12 and 13 carry places", in 12 two treatment members, in 13 "the first is a
/// plot member".
fn design_refused(trial: &Trial, number: u32, first: usize, second: usize) -> String {
    match number {
        9 => refused(number, &trial.plot_name(first), "-"),
        10 => refused(number, &trial.plot_name(first), &trial.plot_name(second)),
        12 => refused(number, &trial.treatment_name(first), &trial.treatment_name(second)),
        13 => refused(number, &trial.plot_name(first), &trial.treatment_name(second)),
        _ => refused(number, "-", "-"),
    }
}

/// "The first line is the three words below. … For each plot member in order come its treatment members in order, then
/// `=residual` …, then `=total`. Last comes `=all`, `=total`, N."
fn table(trial: &Trial) -> String {
    let (_, plot_degrees) = degrees(&trial.plot_family, trial.plots, trial.plot_size);
    let (_, treatment_degrees) = degrees(&trial.treatment_family, trial.plots, trial.treatment_size);
    let families = (&trial.plot_family, trial.plot_size, &trial.treatment_family, trial.treatment_size);
    let (number, answer) = strata(families.0, families.1, families.2, families.3, trial.plots);
    if number != 0 {
        return refused(number, "-", "-");
    }
    let mut text = line(["stratum", "source", "df"]);
    for place in 1..=trial.plot_size {
        let belongs = |j: &usize| answer[j - 1] == place as i64;
        let own: Vec<usize> = (1..=trial.treatment_size).filter(belongs).collect();
        let stratum = trial.plot_name(place);
        for &j in &own {
            text += &line([&stratum, &trial.treatment_name(j), &treatment_degrees[j - 1].to_string()]);
        }
        let residual = answer[MEMBERS + place - 1];
        if !own.is_empty() && residual != 0 {
            text += &line([&stratum, "=residual", &residual.to_string()]);
        }
        text += &line([&stratum, "=total", &plot_degrees[place - 1].to_string()]);
    }
    text + &line(["=all", "=total", &trial.plots.to_string()])
}

/// The whole output for a sheet: "The skeleton program reads a sheet on standard input with k = 6."
fn output(text: &[u8]) -> String {
    let mut levels = vec![0; LEVELS];
    let (number, counts) = read_sheet(text, &mut levels);
    if number != 0 {
        return refused(number, "-", "-");
    }
    let [plots, plot_columns, treatment_columns] = counts.map(|count| count as usize);
    let (mut plot_family, mut treatment_family) = (vec![0; FAMILY], vec![0; FAMILY]);
    let (number, answer) =
        full_design(&levels, plots, plot_columns, treatment_columns, K, &mut plot_family, &mut treatment_family);
    let [first, second, plot_size, treatment_size] = answer.map(|value| value as usize);
    let trial = Trial { text, levels, plots, plot_family, treatment_family, plot_size, treatment_size };
    if number == 0 {
        table(&trial)
    } else {
        design_refused(&trial, number, first, second)
    }
}

/// The program's output into a lent buffer: one shorter than 32,768 bytes is refused with 6 and left as it is.
pub fn skeleton(text: &[u8], out: &mut [u8]) -> (u32, u64) {
    if out.len() < TABLE {
        return (6, 0);
    }
    let answer = output(text);
    out[..answer.len()].copy_from_slice(answer.as_bytes());
    (0, answer.len() as u64)
}
