//! Sheets numbered within a parent: what they are converted to, what is refused, and in which order the questions are asked.

mod common;

use common::*;
use compare::old_sheet;
use compare::random::Random;
use reference::{Entries, Level, SHEET, TEXT};

/// What an implementation makes of an old sheet: the refusal or the text.
fn converted(entries: &Entries, old: &[u8]) -> Result<Vec<u8>, u32> {
    written(entries.convert, old)
}

/// Both convert one sheet to another; lines with blanks in place of tabs.
fn converts(old: &[&str], expected: &[&str]) {
    for entries in &BOTH {
        let found = converted(entries, lines(old).as_bytes());
        let text = found.map(|text| String::from_utf8(text).expect("the sheet is ASCII"));
        assert_eq!(text, Ok(lines(expected)), "{}: {old:?}", entries.title);
    }
}

/// Both refuse a text by this number.
fn refuses(old: &[u8], number: u32) {
    for entries in &BOTH {
        let shown = String::from_utf8_lossy(&old[..old.len().min(80)]);
        assert_eq!(converted(entries, old).err().unwrap_or(0), number, "{}: {shown:?}", entries.title);
    }
}

/// A first line with blanks in place of tabs, and so many plots with 1 in each field.
fn sheet_of(titles: &str, plots: usize) -> Vec<u8> {
    let plot = vec!["1"; titles.split(' ').count()].join(" ");
    let all: Vec<&str> = std::iter::once(titles).chain(std::iter::repeat_n(plot.as_str(), plots)).collect();
    lines(&all).into_bytes()
}

#[test]
fn sections_numbered_anew_on_each_bench() {
    converts(
        &["p:Bench p:Section/Bench t:Dose", "1 1 1", "1 2 2", "2 1 2", "2 2 1", "1 1 2"],
        &["p:Bench p:Section t:Dose", "1 1 1", "1 2 2", "2 3 2", "2 4 1", "1 1 2"],
    );
    // First appearance decides, whatever the numbers are.
    converts(&["p:Bench p:Section/Bench", "9 7", "8 7", "9 3", "9 7"], &["p:Bench p:Section", "9 1", "8 2", "9 3", "9 1"]);
    converts(&["p:Bench p:Section/Bench", "5 5"], &["p:Bench p:Section", "5 1"]);
}

#[test]
fn a_column_with_a_parent_may_be_a_parent() {
    // Plants are numbered anew in each section: bench 1 and bench 2 have a section 1 with a plant 1 each.
    converts(
        &["p:Bench p:Section/Bench p:Plant/Section", "1 1 1", "1 1 2", "2 1 1", "2 1 2", "1 2 1"],
        &["p:Bench p:Section p:Plant", "1 1 1", "1 1 2", "2 2 3", "2 2 4", "1 3 5"],
    );
    // Here the converted section tells more than its own number and the plant's.
    converts(
        &["p:Aa p:Bb/Aa p:Cc/Bb p:Dd/Cc", "1 1 1 1", "2 1 1 1", "1 1 1 1", "2 1 1 2"],
        &["p:Aa p:Bb p:Cc p:Dd", "1 1 1 1", "2 2 2 2", "1 1 1 1", "2 2 2 3"],
    );
    // Two children of one parent, and a chain of six.
    converts(&["p:Aa p:Bb/Aa p:Cc/Aa", "1 1 1", "2 1 1", "2 1 2"], &["p:Aa p:Bb p:Cc", "1 1 1", "2 2 2", "2 2 3"]);
    converts(
        &["p:Aa p:Bb/Aa p:Cc/Bb p:Dd/Cc p:Ee/Dd p:Ff/Ee", "3 1 1 1 1 1", "4 1 1 1 1 1"],
        &["p:Aa p:Bb p:Cc p:Dd p:Ee p:Ff", "3 1 1 1 1 1", "4 2 2 2 2 2"],
    );
}

#[test]
fn columns_without_a_slash_keep_their_labels() {
    converts(
        &["t:Gain p:Hut t:Cable p:Pier/Hut p:Sensor", "4294967295 65537 7 9 20417731", "3 1 7 9 4294967295", "2 65537 1 8 1"],
        &["t:Gain p:Hut t:Cable p:Pier p:Sensor", "4294967295 65537 7 1 20417731", "3 1 7 2 4294967295", "2 65537 1 3 1"],
    );
    // Labels of a column with a parent, and of the parent, are compared whole.
    converts(
        &["p:Hut p:Pier/Hut", "1 1", "65537 1", "1 65537", "4294967295 1", "1 1"],
        &["p:Hut p:Pier", "1 1", "65537 2", "1 3", "4294967295 4", "1 1"],
    );
}

#[test]
fn a_name_is_the_part_before_the_slash() {
    // One name is the beginning of another, names differ by case, and a treatment is called like a parent's beginning.
    converts(&["p:Hu p:Hut p:HUT p:Pier/Hut", "1 1 2 1", "2 1 3 1"], &["p:Hu p:Hut p:HUT p:Pier", "1 1 2 1", "2 1 3 1"]);
    refuses(&sheet_of("p:Hut p:Pier/HUT", 1), 23);
    refuses(&sheet_of("p:Hutt p:Pier/Hut", 1), 23);
    refuses(&sheet_of("p:Hu p:Pier/Hut", 1), 23);
    refuses(&sheet_of("p:Hut p:Pier/Hut p:Pier", 1), 3);
    refuses(&sheet_of("p:Hut p:Pier/Hut t:Pier", 1), 3);
    refuses(&sheet_of("p:Hut p:Hut/Hut", 1), 3);
}

#[test]
fn a_slash_stands_once_and_in_plot_columns() {
    refuses(&sheet_of("p:Hut t:Gain/Hut", 1), 3);
    refuses(&sheet_of("t:Hut t:Gain/Hut", 1), 3);
    let parents = [
        "/", "/H", "/1a", "/Abcdefghijklm", "/Hu_t", "/Hut/", "/Hut/Hut", "//Hut", "/p:Hut", "/Hut\r", "/H\u{e9}t", "/Hut,Hut", "/H\0",
    ];
    for parent in parents {
        refuses(&sheet_of(&format!("p:Hut p:Pier{parent}"), 1), 3);
        refuses(&sheet_of(&format!("p:Hut p:Pier{parent} p:Week/Nobody"), 1), 3);
    }
    for title in ["p:/Hut", "p:P/Hut", "/Hut", "p/Hut", "q:Pier/Hut", "p:Abcdefghijklm/Hut", "P:Pier/Hut", "p:Pi er/Hut"] {
        refuses(format!("p:Hut\t{title}\n1\t1\n").as_bytes(), 3);
    }
    refuses(b"p:Hut\tp:Pier/Hut", 3);
    refuses(b"p:Hut\tp:Pier/", 3);
    refuses(b"p:Hut\tp:Pier/Hut\t\n1\t1\t1\n", 3);
    converts(&["p:A1 p:Abcdefghijkl/A1 p:B2/Abcdefghijkl", "1 1 1"], &["p:A1 p:Abcdefghijkl p:B2", "1 1 1"]);
}

#[test]
fn at_most_six_columns_of_one_kind() {
    refuses(&sheet_of("p:Aa p:Bb/Aa p:Cc/Aa p:Dd/Aa p:Ee/Aa p:Ff/Aa", 1), 0);
    refuses(&sheet_of("p:Aa p:Bb/Aa p:Cc/Aa p:Dd/Aa p:Ee/Aa p:Ff/Aa p:Gg/Aa", 1), 3);
    refuses(&sheet_of("t:Aa t:Bb t:Cc t:Dd t:Ee t:Ff t:Gg", 1), 3);
}

#[test]
fn a_parent_is_a_plot_column_further_left() {
    for titles in [
        "p:Pier/Hut p:Hut", "p:Pier/Pier", "p:Hut p:Pier/Pier", "p:Pier/Nobody", "p:Hut p:Pier/Nobody", "t:Hut p:Pier/Hut",
        "p:Pier/Hut t:Hut", "p:Hut p:Pier/Week p:Week/Hut", "p:Hut p:Pier/Hut p:Week/Nobody", "p:Aa/Bb p:Bb/Aa",
    ] {
        refuses(&sheet_of(titles, 1), 23);
    }
    // A treatment between the two does not matter, nor one before them.
    refuses(&sheet_of("t:Gain p:Hut t:Cable p:Pier/Hut t:Filter", 1), 0);
}

#[test]
fn the_order_is_6_2_3_4_5_23() {
    let bad_parent = "p:Pier/Hut p:Hut";
    for entries in &BOTH {
        for old in [&b""[..], b"x", &sheet_of("p:Hut p:Pier/Hut", 1), &sheet_of(bad_parent, 1), &vec![10; TEXT + 1]] {
            for length in [0, 1, SHEET - 1] {
                let mut sheet = pattern(length);
                assert_eq!((entries.convert)(old, &mut sheet), (6, [0]), "{}", entries.title);
                assert_eq!(sheet, pattern(length), "{}", entries.title);
            }
        }
        let mut sheet = pattern(SHEET);
        assert_eq!((entries.convert)(b"p:Aa\n7\n", &mut sheet), (0, [7]), "{}", entries.title);
    }
    refuses(b"", 2);
    refuses(&vec![b'p'; TEXT + 1], 2);
    let with = |line: &[u8]| [&sheet_of(bad_parent, 1), line].concat();
    refuses(&with(b"0\t1\n"), 4);
    refuses(&with(b"1\t1"), 4);
    refuses(&with(b"1/1\t1\n"), 4);
    refuses(&with(b"\n"), 4);
    refuses(&sheet_of(bad_parent, 0), 5);
    refuses(&sheet_of(bad_parent, 240), 23);
    refuses(&sheet_of(bad_parent, 241), 5);
    refuses(&[sheet_of(bad_parent, 241), b"x\n".to_vec()].concat(), 4);
    refuses(&sheet_of("p:Hut p:Pier/Hut", 240), 0);
    refuses(&sheet_of("p:Hut p:Pier/Hut", 241), 5);
}

#[test]
fn the_length_of_the_old_sheet_counts_its_slash_parts() {
    // 4 fields: 32,768 bytes are a first line of 32 bytes and 4,092 lines of 8.
    let exact = sheet_of("p:Aaa p:Bbb p:Ccccc p:Ddddd/Aaa", 4092);
    assert_eq!(exact.len(), TEXT);
    refuses(&exact, 5);
    let longer = sheet_of("p:Aaa p:Bbb p:Ccccc p:Ddddd/Aaab", 4092);
    assert_eq!(longer.len(), TEXT + 1);
    refuses(&longer, 2);
    // Without its slash part this text would not be too long.
    refuses(&sheet_of("p:Aaa p:Bbb p:Ccccc p:Ddddd", 4092), 5);
}

#[test]
fn the_longest_result() {
    let title = |c: usize| format!("{}:Longestnam{c:02}", if c < 6 { 'p' } else { 't' });
    let titles: Vec<String> = (0..12).map(title).collect();
    let line = |u: usize| (0..12).map(|c| (Level::MAX - (240 * c + u) as Level).to_string()).collect::<Vec<_>>().join("\t") + "\n";
    let rows: String = (0..240).map(line).collect();
    let plain = titles.join("\t") + "\n" + &rows;
    assert_eq!(plain.len(), 31_860);
    // With parents: the old sheet is the longest one that is converted, and the result is shorter, for its numbers are.
    let parent = |c: usize| if (1..6).contains(&c) { format!("/Longestnam{:02}", c - 1) } else { String::new() };
    let old = (0..12).map(|c| title(c) + &parent(c)).collect::<Vec<_>>().join("\t") + "\n" + &rows;
    assert_eq!(old.len(), 31_925);
    for entries in &BOTH {
        assert!(converted(entries, plain.as_bytes()) == Ok(plain.clone().into_bytes()), "{}", entries.title);
        // Five columns of 240 numbers, 9 of them with one digit, 90 with two, 141 with three, in place of ten digits each.
        let numbers = 9 + 2 * 90 + 3 * 141;
        assert_eq!(converted(entries, old.as_bytes()).map(|text| text.len()), Ok(31_860 - 5 * (2400 - numbers)), "{}", entries.title);
    }
}

#[test]
fn two_small_columns_become_240_levels() {
    // 15 sections numbered anew on each of 16 benches.
    let rows: Vec<String> = (0..240).map(|u| format!("{} {}", u / 15 + 1, u % 15 + 1)).collect();
    let expected: Vec<String> = (0..240).map(|u| format!("{} {}", u / 15 + 1, u + 1)).collect();
    let all = |title: &'static str, rows: &[String]| -> Vec<String> {
        std::iter::once(title.to_string()).chain(rows.iter().cloned()).collect()
    };
    let (old, new) = (all("p:Bench p:Section/Bench", &rows), all("p:Bench p:Section", &expected));
    converts(&old.iter().map(String::as_str).collect::<Vec<_>>(), &new.iter().map(String::as_str).collect::<Vec<_>>());
}

/// A field of the first line: its name, and its parent's.
type Title = (String, Option<String>);

/// The fields of the first line, and the levels of each plot.
fn taken_apart(text: &[u8]) -> (Vec<Title>, Vec<Vec<Level>>) {
    let text = std::str::from_utf8(text).expect("the sheet is ASCII");
    let mut rows = text.lines().map(|line| line.split('\t').collect::<Vec<_>>());
    let field = |title: &&str| match title[2..].split_once('/') {
        None => (title[2..].to_string(), None),
        Some((name, parent)) => (name.to_string(), Some(parent.to_string())),
    };
    let titles = rows.next().expect("a first line").iter().map(field).collect();
    let levels = rows.map(|row| row.iter().map(|level| level.parse().expect("a level")).collect()).collect();
    (titles, levels)
}

/// The column and all its ancestors.
fn line_of_ancestors(titles: &[Title], field: usize) -> Vec<usize> {
    let mut line = vec![field];
    while let Some(parent) = &titles[line[line.len() - 1]].1 {
        line.push(titles.iter().position(|title| title.0 == *parent).expect("a parent"));
    }
    line
}

/// What is said of an accepted conversion, from the two texts alone.
fn judged(old: &[u8], new: &[u8]) {
    let ((titles, before), (short, after)) = (taken_apart(old), taken_apart(new));
    assert_eq!(short, titles.iter().map(|title| (title.0.clone(), None)).collect::<Vec<_>>());
    assert_eq!(before.len(), after.len());
    for field in 0..titles.len() {
        if titles[field].1.is_none() {
            assert!((0..before.len()).all(|u| before[u][field] == after[u][field]), "a copied column");
            continue;
        }
        let line = line_of_ancestors(&titles, field);
        let mut most = 0;
        for u in 0..before.len() {
            let level = after[u][field];
            assert!((1..=most + 1).contains(&level), "numbered by first appearance");
            most = most.max(level);
            for v in 0..u {
                let together = line.iter().all(|&column| before[u][column] == before[v][column]);
                assert_eq!(level == after[v][field], together, "plots {v} and {u}");
            }
        }
    }
}

#[test]
fn plots_share_a_level_where_they_share_those_of_the_column_and_of_every_ancestor() {
    let (mut accepted, mut chains) = (0, 0);
    for index in 0..1500 {
        let old = old_sheet::text(&mut Random::of(22, 0, index));
        for entries in &BOTH {
            let Ok(new) = converted(entries, &old) else { continue };
            judged(&old, &new);
            assert!(converted(entries, &new) == Ok(new.clone()), "{}: converting again changes nothing", entries.title);
            let titles = taken_apart(&old).0;
            accepted += usize::from(titles.iter().any(|title| title.1.is_some()));
            chains += usize::from((0..titles.len()).any(|field| line_of_ancestors(&titles, field).len() > 2));
        }
    }
    assert!(accepted > 600 && chains > 200, "{accepted} accepted, {chains} with a chain");
}

#[test]
fn every_two_divisions_of_few_plots() {
    for plots in 1..=5 {
        for parent in partitions(plots) {
            for child in partitions(plots) {
                let rows = (0..plots).map(|u| format!("{}\t{}\n", 9 - parent[u], 4_000_000_000 + Level::from(child[u])));
                let old = "p:Aa\tp:Bb/Aa\n".to_string() + &rows.collect::<String>();
                for entries in &BOTH {
                    let new = converted(entries, old.as_bytes()).expect("a sheet");
                    judged(old.as_bytes(), &new);
                }
            }
        }
    }
}

#[test]
fn a_sheet_without_a_slash_comes_back_as_it_is() {
    let mut seen = 0;
    for index in 0..800 {
        let text = compare::sheet::text(&mut Random::of(22, 1, index));
        for entries in &BOTH {
            let (refusal, _) = (entries.read_sheet)(&text, &mut vec![0; reference::LEVELS]);
            let expected = if refusal == 0 { Ok(text.clone()) } else { Err(refusal) };
            assert!(converted(entries, &text) == expected, "{}: {index}", entries.title);
            seen += usize::from(refusal == 0);
        }
    }
    assert!(seen > 400, "{seen}");
}

#[test]
fn the_reader_goes_on_refusing_a_slash() {
    for entries in &BOTH {
        let old = sheet_of("p:Hut p:Pier/Hut", 1);
        assert_eq!((entries.read_sheet)(&old, &mut pattern_levels(reference::LEVELS)), (3, [0; 3]), "{}", entries.title);
        assert_eq!(output(entries, &old), lines(&["refused 3 - -"]), "{}", entries.title);
    }
}
