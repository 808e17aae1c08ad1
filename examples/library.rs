//! Prints the table of a sheet and, after an empty line, against what each treatment is tested. After a refusal it exits with 1 and, where
//! members are not orthogonal, says which. A sheet that is numbered within parents (`p:Section/Bench`) is converted first. In place of a
//! sheet a formula may be given.
//!
//!     rustc -O -L target/staticlib -l static=rachdoum examples/library.rs
//!     ./library examples/huts.sheet
//!     ./library --formula Hut=4/Pier=3

use std::ffi::OsString;
use std::io::Write;
use std::process::ExitCode;

/// As in include/rachdoum.h.
mod rachdoum {
    pub const INTERACTION: usize = 6;
    pub const MEMBERS: usize = 32;
    pub const LEVELS: usize = 2880;
    pub const FAMILY: usize = 7680;
    pub const NAME: usize = 160;
    pub const TABLE: usize = 32768;
    pub const SHEET: usize = 32768;
    pub const NOT_ORTHOGONAL: u64 = 5;
    pub type Level = u32;

    extern "C" {
        pub fn rachdoum_read_sheet(text: *const u8, text_len: usize, levels: *mut Level, levels_len: usize, answer: *mut u64) -> u32;
        pub fn rachdoum_full_design(
            levels: *const Level, levels_len: usize, plots: usize, plot_columns: usize, treatment_columns: usize, k: usize,
            plot_family: *mut u8, plot_family_len: usize, treatment_family: *mut u8, treatment_family_len: usize, answer: *mut u64,
        ) -> u32;
        pub fn rachdoum_degrees(family: *const u8, family_len: usize, plots: usize, size: usize, answer: *mut i64) -> u32;
        pub fn rachdoum_strata(
            plot_family: *const u8, plot_family_len: usize, plot_size: usize, treatment_family: *const u8,
            treatment_family_len: usize, treatment_size: usize, plots: usize, answer: *mut i64,
        ) -> u32;
        pub fn rachdoum_compare(
            first_family: *const u8, first_family_len: usize, first_size: usize, first_place: usize, second_family: *const u8,
            second_family_len: usize, second_size: usize, second_place: usize, plots: usize, answer: *mut u64,
        ) -> u32;
        pub fn rachdoum_name(
            text: *const u8, text_len: usize, levels: *const Level, levels_len: usize, family: *const u8, family_len: usize,
            plots: usize, size: usize, kind: u32, place: usize, name: *mut u8, name_len: usize, answer: *mut u64,
        ) -> u32;
        pub fn rachdoum_skeleton(text: *const u8, text_len: usize, out: *mut u8, out_len: usize, answer: *mut u64) -> u32;
        pub fn rachdoum_convert(old: *const u8, old_len: usize, sheet: *mut u8, sheet_len: usize, answer: *mut u64) -> u32;
        pub fn rachdoum_formula(formula: *const u8, formula_len: usize, sheet: *mut u8, sheet_len: usize, answer: *mut u64) -> u32;
    }
}

use rachdoum::*;

// Every pointer below comes from a slice with its own length, and the arrays have the lengths of the header: that is all that the
// functions ask of their caller.

/// A function that makes a sheet of a text.
type Maker = unsafe extern "C" fn(*const u8, usize, *mut u8, usize, *mut u64) -> u32;

/// The sheet that a function writes. `rachdoum_convert` makes it of one that is numbered within parents, and any other comes back as it is;
/// `rachdoum_formula` of a formula. Err has the refusal.
fn sheet_of(make: Maker, given: &[u8]) -> Result<Vec<u8>, u32> {
    let (mut sheet, mut length) = (vec![0; SHEET], [0; 1]);
    let refusal = unsafe { make(given.as_ptr(), given.len(), sheet.as_mut_ptr(), sheet.len(), length.as_mut_ptr()) };
    sheet.truncate(length[0] as usize);
    if refusal == 0 { Ok(sheet) } else { Err(refusal) }
}

/// The printed text of a sheet. Its buffer is long enough, so the entry refuses nothing; a refused sheet gives a line.
fn table(text: &[u8]) -> Vec<u8> {
    let (mut out, mut length) = (vec![0; TABLE], [0; 1]);
    unsafe { rachdoum_skeleton(text.as_ptr(), text.len(), out.as_mut_ptr(), out.len(), length.as_mut_ptr()) };
    out.truncate(length[0] as usize);
    out
}

/// A family with what its members' names come from.
struct Family<'a> {
    text: &'a [u8],
    levels: &'a [Level],
    plots: usize,
    kind: u32,
    members: [u8; FAMILY],
    size: usize,
}

impl Family<'_> {
    fn degrees(&self) -> [i64; MEMBERS] {
        let mut answer = [0; MEMBERS];
        unsafe { rachdoum_degrees(self.members.as_ptr(), FAMILY, self.plots, self.size, answer.as_mut_ptr()) };
        answer
    }

    fn name(&self, place: usize) -> String {
        let (mut name, mut length) = ([0; NAME], [0; 1]);
        unsafe {
            rachdoum_name(
                self.text.as_ptr(), self.text.len(), self.levels.as_ptr(), self.levels.len(), self.members.as_ptr(), FAMILY,
                self.plots, self.size, self.kind, place, name.as_mut_ptr(), NAME, length.as_mut_ptr(),
            )
        };
        String::from_utf8_lossy(&name[..length[0] as usize]).into_owned()
    }

    /// How the member at a place stands to one of this or of another family.
    fn stands(&self, place: usize, other: &Family, other_place: usize) -> u64 {
        let mut answer = [0; 1];
        unsafe {
            rachdoum_compare(
                self.members.as_ptr(), FAMILY, self.size, place, other.members.as_ptr(), FAMILY, other.size, other_place, self.plots,
                answer.as_mut_ptr(),
            )
        };
        answer[0]
    }
}

/// Reads the sheet and makes both families: the refusal of the design, 0 for none, and the families. After some refusals one is written
/// too. Err has the refusal of the sheet.
fn design<'a>(text: &'a [u8], levels: &'a mut [Level]) -> Result<(u32, [Family<'a>; 2]), u32> {
    let (mut read, mut made) = ([0; 3], [0; 4]);
    let refusal = unsafe { rachdoum_read_sheet(text.as_ptr(), text.len(), levels.as_mut_ptr(), levels.len(), read.as_mut_ptr()) };
    if refusal != 0 {
        return Err(refusal);
    }
    let [plots, plot_columns, treatment_columns] = read.map(|count| count as usize);
    let (mut first, mut second) = ([0; FAMILY], [0; FAMILY]);
    let refusal = unsafe {
        rachdoum_full_design(
            levels.as_ptr(), levels.len(), plots, plot_columns, treatment_columns, INTERACTION, first.as_mut_ptr(), FAMILY,
            second.as_mut_ptr(), FAMILY, made.as_mut_ptr(),
        )
    };
    let of_plots = Family { text, levels, plots, kind: 0, members: first, size: made[2] as usize };
    let treatments = Family { kind: 1, members: second, size: made[3] as usize, ..of_plots };
    Ok((refusal, [of_plots, treatments]))
}

/// Prints against what each treatment is tested.
fn print_tests([of_plots, treatments]: &[Family; 2]) {
    let (mut strata, degrees) = ([0; 2 * MEMBERS], treatments.degrees());
    unsafe {
        rachdoum_strata(
            of_plots.members.as_ptr(), FAMILY, of_plots.size, treatments.members.as_ptr(), FAMILY, treatments.size, of_plots.plots,
            strata.as_mut_ptr(),
        )
    };
    // The first member is U, the mean, which nobody tests.
    for place in 2..=treatments.size {
        let stratum = strata[place - 1] as usize;
        let (name, df) = (treatments.name(place), degrees[place - 1]);
        match strata[MEMBERS + stratum - 1] {
            0 => println!("{name} ({df} df) cannot be tested: no residual in {}", of_plots.name(stratum)),
            residual => println!("{name} ({df} df) is tested in {} against {residual} df", of_plots.name(stratum)),
        }
    }
}

/// Prints all members of a family, or of two, that are not orthogonal: the refusal has the places of the first pair only.
fn print_pairs(first: &Family, second: &Family) {
    for i in 1..=first.size {
        for j in if first.kind == second.kind { i + 1 } else { 1 }..=second.size {
            if first.stands(i, second, j) == NOT_ORTHOGONAL {
                println!("{} and {} are not orthogonal", first.name(i), second.name(j));
            }
        }
    }
}

/// Prints what is said after the table. Answers whether the sheet is accepted.
fn print_design(sheet: Result<Vec<u8>, u32>) -> bool {
    let mut levels = [0; LEVELS];
    let designed = sheet.as_ref().map_err(|refusal| *refusal).and_then(|sheet| design(sheet, &mut levels));
    let refusal = designed.as_ref().map_or_else(|refusal| *refusal, |(refusal, _)| *refusal);
    if refusal != 0 {
        println!("Question {refusal} fails (docs/REFUSALS.md).");
    }
    match designed {
        Ok((0, families)) => print_tests(&families),
        Ok((10, [of_plots, _])) => print_pairs(&of_plots, &of_plots),
        Ok((12, [_, treatments])) => print_pairs(&treatments, &treatments),
        Ok((13, [of_plots, treatments])) => print_pairs(&of_plots, &treatments),
        _ => (),
    }
    refusal == 0
}

/// The sheet of a formula or of a file. Err has what is wrong with the call; the other one, inside, has the refusal.
fn sheet(arguments: &[OsString]) -> Result<Result<Vec<u8>, u32>, String> {
    match arguments {
        [option, formula] if option == "--formula" => Ok(sheet_of(rachdoum_formula, formula.as_encoded_bytes())),
        [path] => match std::fs::read(path) {
            Ok(text) => Ok(sheet_of(rachdoum_convert, &text)),
            Err(error) => Err(format!("library: {path:?}: {error}")),
        },
        _ => Err("usage: library SHEET, or library --formula FORMULA".into()),
    }
}

fn main() -> ExitCode {
    let arguments: Vec<_> = std::env::args_os().skip(1).collect();
    let sheet = match sheet(&arguments) {
        Ok(sheet) => sheet,
        Err(message) => {
            eprintln!("{message}");
            return ExitCode::from(2);
        }
    };
    let shown = sheet.as_ref().map_or_else(|refusal| format!("refused\t{refusal}\t-\t-\n").into_bytes(), |sheet| table(sheet));
    if std::io::stdout().write_all(&shown).is_err() {
        return ExitCode::from(2);
    }
    println!();
    if print_design(sheet) { ExitCode::SUCCESS } else { ExitCode::FAILURE }
}
