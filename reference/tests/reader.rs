//! The reader of sheets: its form, its limits, its order of questions and the cells that it writes.

mod common;

use common::*;
use reference::{Level, LEVELS, PLOTS, TEXT};

/// Both implementations answer this number, and a refusal leaves the table as it was.
fn reads(text: &[u8], number: u32) {
    for entries in &BOTH {
        let mut levels = pattern_levels(LEVELS + 4);
        let (found, counts) = (entries.read_sheet)(text, &mut levels);
        assert_eq!(found, number, "{}: {:?}", entries.title, String::from_utf8_lossy(&text[..text.len().min(80)]));
        if number != 0 {
            assert_eq!((counts, levels), ([0; 3], pattern_levels(LEVELS + 4)));
        }
    }
}

fn plot_lines(count: usize) -> String {
    "p:Aa\n".to_string() + &"1\n".repeat(count)
}

#[test]
fn the_sample_sheet_is_read_and_only_used_cells_change() {
    for entries in &BOTH {
        let mut levels = pattern_levels(LEVELS + 4);
        let text = b"t:Gain\tp:Hut\tt:Cable\n7\t1\t4294967295\n8\t2\t9\n";
        assert_eq!((entries.read_sheet)(text, &mut levels), (0, [2, 1, 2]));
        let mut expected = pattern_levels(LEVELS + 4);
        expected[..2].copy_from_slice(&[1, 2]);
        expected[6 * PLOTS..6 * PLOTS + 2].copy_from_slice(&[7, 8]);
        expected[7 * PLOTS..7 * PLOTS + 2].copy_from_slice(&[4_294_967_295, 9]);
        assert_eq!(levels, expected, "{}", entries.title);
    }
}

#[test]
fn a_short_table_comes_before_all() {
    for entries in &BOTH {
        for text in [&b""[..], b"p:Aa\n1\n", b"x"] {
            let mut levels = pattern_levels(LEVELS - 1);
            assert_eq!((entries.read_sheet)(text, &mut levels), (1, [0; 3]));
            assert_eq!(levels, pattern_levels(LEVELS - 1));
        }
        assert_eq!((entries.read_sheet)(b"", &mut []), (1, [0; 3]));
    }
}

#[test]
fn names_have_two_to_twelve_letters_or_digits() {
    for good in ["p:A1", "t:Zz", "p:aBcDeFgHiJkL", "t:x99999999999", "p:Aa\tt:AA", "p:Hut\tp:hut"] {
        reads(format!("{good}\n{}\n", good.split('\t').map(|_| "1").collect::<Vec<_>>().join("\t")).as_bytes(), 0);
    }
    let bad = [
        "p:A", "p:", "p", "", "P:Aa", "q:Aa", "p;Aa", "p:1a", "p:A_", "p:A ", " p:Aa", "p:aBcDeFgHiJkLm", "p:Aa\r", "p:A\u{e9}",
        "p:Aa\t", "\tp:Aa", "p:Aa\t\tt:Bb", "p:Aa\tt:Aa", "p:Aa\tp:Aa", "p:Aa t:Bb", "p:p:", "p:A\0",
    ];
    for heading in bad {
        reads(format!("{heading}\n1\n").as_bytes(), 3);
    }
}

#[test]
fn at_most_six_columns_of_one_kind() {
    let line = |plots: usize, treatments: usize| {
        let plots = (0..plots).map(|c| format!("p:Pp{c}"));
        let all: Vec<String> = plots.chain((0..treatments).map(|c| format!("t:Tt{c}"))).collect();
        format!("{}\n{}\n", all.join("\t"), vec!["1"; all.len()].join("\t"))
    };
    reads(line(6, 6).as_bytes(), 0);
    reads(line(6, 0).as_bytes(), 0);
    reads(line(7, 0).as_bytes(), 3);
    reads(line(0, 7).as_bytes(), 3);
    reads(line(7, 5).as_bytes(), 3);
    reads(line(7, 6).as_bytes(), 3);
    reads(line(40, 40).as_bytes(), 3);
}

#[test]
fn every_line_is_ended() {
    reads(b"p:Aa", 3);
    reads(b"p:Aa\n1", 4);
    reads(b"p:Aa\n1\n2", 4);
    reads((plot_lines(240) + "1").as_bytes(), 4);
    reads(b"\n", 3);
    reads(b"\np:Aa\n1\n", 3);
    reads(b"p:Aa\n\n", 4);
    reads(b"p:Aa\n1\n\n", 4);
    reads(b"p:Aa\n\n1\n", 4);
    reads(b"p:Aa\r\n1\n", 3);
    reads(b"p:Aa\n1\r\n", 4);
}

/// Both read this field as this level, and store it whole.
fn level_is(field: &str, level: Level) {
    for entries in &BOTH {
        let mut levels = pattern_levels(LEVELS + 4);
        assert_eq!((entries.read_sheet)(format!("p:Aa\n{field}\n").as_bytes(), &mut levels), (0, [1, 1, 0]), "{field}");
        let mut expected = pattern_levels(LEVELS + 4);
        expected[0] = level;
        assert_eq!(levels, expected, "{}: {field}", entries.title);
    }
}

#[test]
fn levels_are_1_to_4294967295() {
    let read = [
        ("1", 1), ("9", 9), ("10", 10), ("255", 0xFF), ("256", 0x100), ("59999", 59_999), ("60000", 60_000), ("65535", 0xFFFF),
        ("65536", 0x1_0000), ("65537", 0x1_0001), ("99999", 99_999), ("100000", 100_000), ("131073", 0x2_0001),
        ("16777216", 0x100_0000), ("999999999", 999_999_999), ("1000000000", 1_000_000_000), ("2147483648", 0x8000_0000),
        ("4294901760", 0xFFFF_0000), ("4294967294", 0xFFFF_FFFE), ("4294967295", 0xFFFF_FFFF),
    ];
    read.into_iter().for_each(|(field, level)| level_is(field, level));
    let refused = [
        "0", "4294967296", "4294967297", "4294967300", "4294967305", "4295032831", "4300000000", "5000000000", "8589934593", "9999999999",
        "10000000000", "42949672950", "281474976710657", "18446744073709551615", "18446744073709551616", "18446744073709551617",
        "340282366920938463463374607431768211457",
    ];
    refused.into_iter().for_each(|field| reads(format!("p:Aa\n{field}\n").as_bytes(), 4));
    for digit in ["1", "4", "9"] {
        reads(format!("p:Aa\n{}\n", digit.repeat(32_000)).as_bytes(), 4);
    }
}

#[test]
fn levels_are_digits_without_leading_zeros() {
    let bad = [
        "00", "01", "04294967295", "0000000001", "+1", "-1", " 1", "1 ", "1\r", "1.0", "1e1", "x", "1\t", "\t1", "1\t1", "\u{663}", "1\0",
        ":", "/", "429496729:", "429496729/",
    ];
    for level in bad {
        reads(format!("p:Aa\n{level}\n").as_bytes(), 4);
    }
    reads(format!("p:Aa\n{}1\n", "0".repeat(32_000)).as_bytes(), 4);
    reads(b"p:Aa\tt:Bb\n1\n", 4);
    reads(b"p:Aa\tt:Bb\n1 1\n", 4);
    reads(b"p:Aa\tt:Bb\n1\t1\t1\n", 4);
    reads(b"p:Aa\tt:Bb\n1\t\n", 4);
}

#[test]
fn every_level_of_16_bits_is_read_as_itself() {
    let all: Vec<Level> = (1..=65_535).collect();
    for column in all.chunks(PLOTS) {
        let text = "p:Aa\n".to_string() + &column.iter().map(|level| format!("{level}\n")).collect::<String>();
        for entries in &BOTH {
            let mut levels = pattern_levels(LEVELS);
            assert_eq!((entries.read_sheet)(text.as_bytes(), &mut levels), (0, [column.len() as u64, 1, 0]));
            assert_eq!(levels[..column.len()], *column, "{}", entries.title);
        }
    }
}

#[test]
fn the_longest_sheet_is_read() {
    // A level of ten digits, another one in each cell.
    let level = |c: usize, u: usize| Level::MAX - (PLOTS * c + u) as Level;
    let names: Vec<String> = (0..12).map(|c| format!("{}:Longestnam{c:02}", if c < 6 { 'p' } else { 't' })).collect();
    let line = |u: usize| (0..12).map(|c| level(c, u).to_string()).collect::<Vec<_>>().join("\t") + "\n";
    let text = names.join("\t") + "\n" + &(0..PLOTS).map(line).collect::<String>();
    assert_eq!(text.len(), 31_860);
    for entries in &BOTH {
        let mut levels = pattern_levels(LEVELS + 4);
        assert_eq!((entries.read_sheet)(text.as_bytes(), &mut levels), (0, [240, 6, 6]));
        let mut expected = pattern_levels(LEVELS + 4);
        (0..LEVELS).for_each(|cell| expected[cell] = level(cell / PLOTS, cell % PLOTS));
        assert_eq!(levels, expected, "{}", entries.title);
    }
}

#[test]
fn a_cell_of_which_half_was_written_shows() {
    let halves = |level: &Level| [level >> 16, level & 0xFFFF];
    let shows = |level: &Level| halves(level).iter().all(|&half| half != 0 && half != 0xFFFF);
    assert!(pattern_levels(2 * LEVELS).iter().all(shows));
}

#[test]
fn one_to_240_plot_lines_after_every_line_was_judged() {
    reads(b"p:Aa\n", 5);
    reads(plot_lines(1).as_bytes(), 0);
    reads(plot_lines(240).as_bytes(), 0);
    reads(plot_lines(241).as_bytes(), 5);
    reads((plot_lines(240) + "0\n").as_bytes(), 4);
    reads((plot_lines(300) + "x\n").as_bytes(), 4);
    reads((plot_lines(300) + "1").as_bytes(), 4);
}

#[test]
fn text_of_1_to_32768_bytes() {
    reads(b"", 2);
    let text = "p:Aaa\n".to_string() + &"1\n".repeat(16_381);
    assert_eq!(text.len(), TEXT);
    reads(text.as_bytes(), 5);
    reads(text.replacen("Aaa", "Aaaa", 1).as_bytes(), 2);
    reads(&vec![0; TEXT + 1], 2);
    reads(&vec![0; TEXT], 3);
    reads(&vec![10; 40_000], 2);
}

#[test]
fn the_program_prints_one_line_for_a_refused_sheet() {
    let cases: [(&[u8], &str); 5] = [
        (b"", "refused 2 - -"),
        (&[b'p'; TEXT + 1], "refused 2 - -"),
        (b"p:Hut", "refused 3 - -"),
        (b"p:Hut\n0\n", "refused 4 - -"),
        (b"p:Hut\n", "refused 5 - -"),
    ];
    for entries in &BOTH {
        for (text, expected) in cases {
            assert_eq!(output(entries, text), lines(&[expected]), "{}", entries.title);
        }
    }
}
