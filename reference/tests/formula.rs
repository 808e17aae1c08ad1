//! Sheets of formulas: what a formula gives, what is refused, in which order the questions are asked, and what holds of every such sheet.

mod common;

use common::*;
use compare::formula;
use compare::random::Random;
use reference::{Entries, Level, FAMILY, FAST, FORMULA, LEVELS, MEMBERS, SHEET};

/// Both write this sheet; lines with blanks in place of tabs.
fn gives(text: &str, expected: &[&str]) {
    for entries in &BOTH {
        let found = written(entries.formula, text.as_bytes()).map(|sheet| String::from_utf8(sheet).expect("the sheet is ASCII"));
        assert_eq!(found, Ok(lines(expected)), "{}: {text}", entries.title);
    }
}

/// Both write a sheet with these columns, which the formula names in this order.
fn gives_columns(text: &str, columns: &[(&str, Vec<usize>)]) {
    let column = |(name, levels): &(&str, Vec<usize>)| (name.to_string(), levels.iter().map(|&level| level as Level).collect());
    let columns: Vec<(String, Vec<Level>)> = columns.iter().map(column).collect();
    let columns: Vec<(&str, Vec<Level>)> = columns.iter().map(|(name, levels)| (name.as_str(), levels.clone())).collect();
    for entries in &BOTH {
        assert!(written(entries.formula, text.as_bytes()) == Ok(sheet(&columns, &[])), "{}: {text}", entries.title);
    }
}

/// The levels of a column, one a plot.
fn by_plot(plots: usize, level: impl Fn(usize) -> usize) -> Vec<usize> {
    (0..plots).map(level).collect()
}

/// Both refuse a text by this number; 0 for not at all.
fn refuses(text: impl AsRef<[u8]>, number: u32) {
    for entries in &BOTH {
        let shown = String::from_utf8_lossy(text.as_ref());
        assert_eq!(written(entries.formula, text.as_ref()).err().unwrap_or(0), number, "{}: {shown:?}", entries.title);
    }
}

/// So many names of two letters, all with this count, joined by an operator.
fn joined(names: usize, count: usize, operator: &str) -> String {
    let name = |i: usize| format!("{}{}={count}", char::from(b'A' + (i / 26) as u8), char::from(b'a' + (i % 26) as u8));
    (0..names).map(name).collect::<Vec<_>>().join(operator)
}

/// The text in so many pairs of brackets.
fn bracketed(pairs: usize, text: &str) -> String {
    format!("{}{text}{}", "(".repeat(pairs), ")".repeat(pairs))
}

#[test]
fn piers_within_huts() {
    gives("Hut=2/Pier=2", &["p:Hut p:Pier", "1 1", "1 2", "2 3", "2 4"]);
    gives("Pier=2/Hut=2", &["p:Pier p:Hut", "1 1", "1 2", "2 3", "2 4"]);
    gives("Hut=2*Pier=3", &["p:Hut p:Pier", "1 1", "1 2", "1 3", "2 1", "2 2", "2 3"]);
    gives("Hut=3/Pier=2", &["p:Hut p:Pier", "1 1", "1 2", "2 3", "2 4", "3 5", "3 6"]);
    gives("Hut=2", &["p:Hut", "1", "2"]);
}

#[test]
fn brackets_decide_what_a_name_is_nested_in() {
    // In both of the first two: each plot has a level of its own.
    gives("(Aa=2*Bb=2)/Cc=2", &["p:Aa p:Bb p:Cc", "1 1 1", "1 1 2", "1 2 3", "1 2 4", "2 1 5", "2 1 6", "2 2 7", "2 2 8"]);
    // In none.
    gives("(Aa=2/Bb=2)*Cc=2", &["p:Aa p:Bb p:Cc", "1 1 1", "1 1 2", "1 2 1", "1 2 2", "2 3 1", "2 3 2", "2 4 1", "2 4 2"]);
    // Both in the first.
    gives("Aa=2/(Bb=2*Cc=2)", &["p:Aa p:Bb p:Cc", "1 1 1", "1 1 2", "1 2 1", "1 2 2", "2 3 3", "2 3 4", "2 4 3", "2 4 4"]);
    // The third in the second, and not in the first.
    gives("Aa=2*(Bb=2/Cc=2)", &["p:Aa p:Bb p:Cc", "1 1 1", "1 1 2", "1 2 3", "1 2 4", "2 1 1", "2 1 2", "2 2 3", "2 2 4"]);
}

#[test]
fn a_later_item_is_nested_in_all_earlier_ones() {
    let sheet = ["p:Aa p:Bb p:Cc", "1 1 1", "1 1 2", "1 2 3", "1 2 4", "2 3 5", "2 3 6", "2 4 7", "2 4 8"];
    for text in ["Aa=2/Bb=2/Cc=2", "(Aa=2/Bb=2)/Cc=2", "Aa=2/(Bb=2/Cc=2)", "(Aa=2)/((Bb=2)/(Cc=2))", "((Aa=2/Bb=2/Cc=2))"] {
        gives(text, &sheet);
    }
    // Plot 8a + 4b + 2c + d.
    let first = |u: usize| u / 8 + 1;
    let columns = [
        ("Aa", by_plot(16, first)),
        ("Bb", by_plot(16, |u| u / 4 % 2 + 1)),
        ("Cc", by_plot(16, |u| u / 2 + 1)),
        ("Dd", by_plot(16, |u| 2 * (u / 4) + u % 2 + 1)),
    ];
    gives_columns("(Aa=2*Bb=2)/(Cc=2*Dd=2)", &columns);
    // The last is nested in the third and, as that is, in the first; it is crossed with the second.
    let columns = [
        ("Aa", by_plot(16, first)),
        ("Bb", by_plot(16, |u| u / 4 + 1)),
        ("Cc", by_plot(16, |u| 2 * (u / 8) + u / 2 % 2 + 1)),
        ("Dd", by_plot(16, |u| 4 * (u / 8) + u % 4 + 1)),
    ];
    gives_columns("Aa=2/(Bb=2*(Cc=2/Dd=2))", &columns);
    // Lists after a bracket that is closed: the last two are nested in the first three.
    let columns = [
        ("Aa", by_plot(32, |u| u / 16 + 1)),
        ("Bb", by_plot(32, |u| u / 8 + 1)),
        ("Cc", by_plot(32, |u| u / 4 % 2 + 1)),
        ("Dd", by_plot(32, |u| u / 2 + 1)),
        ("Ee", by_plot(32, |u| u + 1)),
    ];
    gives_columns("((Aa=2/Bb=2)*Cc=2)/(Dd=2/Ee=2)", &columns);
}

#[test]
fn levels_past_nine_and_counts_that_differ() {
    // Plot 60a + 20b + 4c + d with counts 4, 3, 5 and 4.
    let columns = [
        ("Site", by_plot(240, |u| u / 60 + 1)),
        ("Block", by_plot(240, |u| u / 20 + 1)),
        ("Row", by_plot(240, |u| 5 * (u / 20) + u / 4 % 5 + 1)),
        ("Column", by_plot(240, |u| 4 * (u / 20) + u % 4 + 1)),
    ];
    gives_columns("Site=4/Block=3/(Row=5*Column=4)", &columns);
    gives_columns("Plot=240", &[("Plot", by_plot(240, |u| u + 1))]);
    gives_columns("Aa=2*Bb=120", &[("Aa", by_plot(240, |u| u / 120 + 1)), ("Bb", by_plot(240, |u| u % 120 + 1))]);
    let powers = [120, 60, 30, 15, 5, 1];
    let counts = [2, 2, 2, 2, 3, 5];
    let names = ["Aa", "Bb", "Cc", "Dd", "Ee", "Ff"];
    let crossed = |i: usize| (names[i], by_plot(240, |u| u / powers[i] % counts[i] + 1));
    gives_columns("Aa=2*Bb=2*Cc=2*Dd=2*Ee=3*Ff=5", &(0..6).map(crossed).collect::<Vec<_>>());
    let nested = |i: usize| (names[i], by_plot(240, |u| u / powers[i] + 1));
    gives_columns("Aa=2/Bb=2/Cc=2/Dd=2/Ee=3/Ff=5", &(0..6).map(nested).collect::<Vec<_>>());
}

#[test]
fn brackets_around_anything_that_is_a_formula() {
    for text in ["Aa=2", "(Aa=2)", "((Aa=2))", "(((Aa=2)))"] {
        gives(text, &["p:Aa", "1", "2"]);
    }
    for text in ["(Aa=2)/Bb=2", "Aa=2/(Bb=2)", "((Aa=2)/((Bb=2)))", "(Aa=2/Bb=2)"] {
        gives(text, &["p:Aa p:Bb", "1 1", "1 2", "2 3", "2 4"]);
    }
    // The two operators stand in different lists.
    refuses("(Aa=2/Bb=2)*(Cc=2/Dd=2)", 0);
    refuses("(Aa=2*Bb=2)/(Cc=2*Dd=2)", 0);
    refuses("Aa=2/(Bb=2*Cc=2)/Dd=2", 0);
    for text in [
        "()", "(", ")", "(Aa=2", "Aa=2)", "((Aa=2)", "(Aa=2))", ")Aa=2(", "Aa=2()", "()Aa=2", "(Aa=2)(Bb=2)", "(Aa=2)Bb=2", "Aa=2(Bb=2)",
        "(Aa)=2", "Aa=(2)", "(Aa=)2", "Aa(=2)", "(Aa=2/)", "(/Aa=2)", "Aa=2/()", "()/Aa=2", "(Aa=2)/", "[Aa=2]", "{Aa=2}", "(Aa=2]",
        "Aa=2)/(Bb=2", "(Aa=2/Bb=2))/((Cc=2)",
    ] {
        refuses(text, 17);
    }
}

#[test]
fn one_operator_in_a_list() {
    for text in [
        "Aa=2/Bb=2*Cc=2", "Aa=2*Bb=2/Cc=2", "Aa=2/(Bb=2)*Cc=2", "(Aa=2/Bb=2*Cc=2)", "Dd=2/(Aa=2/Bb=2*Cc=2)", "(Aa=2*Bb=2/Cc=2)*Dd=2",
        "Aa=2/(Bb=2*Cc=2)*Dd=2", "Aa=2*(Bb=2*Cc=2)/Dd=2", "Aa=2//Bb=2", "Aa=2**Bb=2", "Aa=2/*Bb=2", "/Aa=2", "*Aa=2", "Aa=2/", "Aa=2*",
        "/", "*", "Aa=2+Bb=2", "Aa=2.Bb=2", "Aa=2,Bb=2", "Aa=2\\Bb=2", "Aa=2Bb=2", "Aa=2-Bb=2", "Aa=2:Bb=2", "Aa=2 Bb=2",
    ] {
        refuses(text, 17);
    }
}

#[test]
fn names_have_two_to_twelve_letters_and_digits() {
    for name in ["Ab", "aB", "A1", "zz", "ZZ", "Abcdefghijkl", "A23456789012"] {
        gives(&format!("{name}=2"), &[&format!("p:{name}"), "1", "2"]);
    }
    let names = [
        "", "A", "Abcdefghijklm", "Abcdefghijklmnopqrstuvwxyz", "1a", "12", "A_", "_A", "A b", " Ab", "Ab ", "A-b", "A.b", "p:Ab",
        "\u{e9}a", "a\u{e9}", "A\0", "A\t", "A\n", "A@", "A[", "A`", "A{", "A/b",
    ];
    for name in names {
        refuses(format!("{name}=2"), 17);
        refuses(format!("Hut=2/{name}=2"), 17);
        refuses(format!("(Hut=2/{name}=2)*Pier=2"), 17);
    }
    refuses(b"A\xff=2", 17);
    refuses("2", 17);
    refuses("Aa", 17);
    refuses("=2", 17);
    refuses("=", 17);
    refuses("2=Aa", 17);
}

#[test]
fn names_differ_byte_for_byte() {
    for text in ["Aa=2/Aa=2", "Aa=2*Aa=3", "Aa=2/Bb=2/Aa=2", "(Aa=2*Bb=2)/(Cc=2*Aa=2)", "Aa=2/(Aa=2)", "Abcdefghijkl=2/Abcdefghijkl=2"] {
        refuses(text, 17);
    }
    for text in [
        "Aa=2/AA=2", "Aa=2/aA=2", "Hut=2/Hutt=2", "Hutt=2/Hut=2", "Abcdefghijkl=2/Abcdefghijkm=2", "Abcdefghijkl=2/Abcdefghijk=2",
        "A1=2/A2=2",
    ] {
        refuses(text, 0);
    }
}

#[test]
fn counts_are_2_to_240_without_leading_zeros() {
    for count in 2..=240 {
        refuses(format!("Aa={count}"), 0);
    }
    let zeros = ["0", "00", "1", "01", "02", "002", "010", "0240"].map(String::from);
    let large = [
        "241", "242", "249", "250", "256", "258", "299", "300", "512", "999", "1000", "2400", "65538", "4294967298", "18446744073709551618",
    ];
    let longest = "2".repeat(FORMULA - 3);
    let shapes = ["", "+2", "-2", " 2", "2 ", "2.0", "2e1", "0x2", "2a", "a", "2=2", "=2", "2\n", "2\0", "\u{662}", "2(", "(2)"];
    for count in zeros.iter().map(String::as_str).chain(large).chain(shapes).chain([longest.as_str()]) {
        refuses(format!("Aa={count}"), 17);
        refuses(format!("Aa={count}/Bb=2"), 17);
        refuses(format!("Aa=2*(Bb={count}/Cc=2)"), 17);
    }
}

#[test]
fn one_to_256_bytes() {
    refuses("", 17);
    // Brackets up to the last byte: 126 pairs around `Aa=2`.
    let all = bracketed(126, "Aa=2");
    assert_eq!(all.len(), FORMULA);
    gives(&all, &["p:Aa", "1", "2"]);
    let less = bracketed(125, "Aaa=2");
    assert_eq!(less.len(), FORMULA - 1);
    gives(&less, &["p:Aaa", "1", "2"]);
    let inside = [bracketed(126, "Aaa=2"), bracketed(127, "Aa=2"), bracketed(126, "Aa=22")];
    for text in inside.into_iter().chain([")", " ", "\n"].map(|end| all.clone() + end)) {
        assert!(text.len() > FORMULA);
        refuses(&text, 17);
    }
    // All brackets, and one too few or too many on a side, at the limit.
    for text in ["(".repeat(FORMULA), ")".repeat(FORMULA), bracketed(128, ""), "(".repeat(127) + "Aa=2" + &")".repeat(125)] {
        assert_eq!(text.len(), FORMULA);
        refuses(text, 17);
    }
    refuses("(".repeat(125) + "Aa=2" + &")".repeat(127), 17);
    // Long texts of other sorts, and one whose length is 0 or 1 in 8 bits.
    refuses(all.repeat(2), 17);
    refuses("Aa=2".to_string() + &" ".repeat(509), 17);
    refuses(vec![b'('; 1_000_000], 17);
    // Six items of 12 letters in as many brackets as there is room for: 6 * 14 + 5 + 2 * 83.
    let names: Vec<String> = (1..=6).map(|i| format!("Abcdefghijk{i}=2")).collect();
    for (pairs, number) in [(83, 0), (84, 17)] {
        refuses(bracketed(pairs, &names.join("/")), number);
    }
    refuses(bracketed(83, &names.join("/")) + "*", 17);
}

#[test]
fn at_most_six_names() {
    for operator in ["/", "*"] {
        refuses(joined(6, 2, operator), 0);
        refuses(joined(7, 2, operator), 18);
        // 128 plots or 64 would be few enough: there are too many names.
        refuses(format!("({}){operator}Zz=2", joined(6, 2, operator)), 18);
        refuses(joined(51, 2, operator), 18);
        assert_eq!(joined(51, 2, operator).len(), 254);
        refuses(joined(51, 2, operator) + operator, 17);
    }
}

#[test]
fn at_most_240_plots() {
    refuses("Aa=240", 0);
    refuses("Aa=15*Bb=16", 0);
    refuses("Aa=120/Bb=2", 0);
    refuses("Aa=2/Bb=2/Cc=2/Dd=2/Ee=3/Ff=5", 0);
    // 242, 241 being a prime; 243, 256, 480.
    refuses("Aa=2/Bb=121", 18);
    refuses("Aa=121*Bb=2", 18);
    refuses("Aa=3*Bb=3*Cc=3*Dd=3*Ee=3", 18);
    refuses("Aa=16*Bb=16", 18);
    refuses("Aa=240*Bb=2", 18);
    refuses("(Aa=240)/Bb=240", 18);
    refuses("Aa=2/Bb=2/Cc=2/Dd=2/Ee=3/Ff=6", 18);
}

#[test]
fn the_number_of_plots_does_not_wrap() {
    // 2 to the power of 8, 16 and 32 with at most six names.
    refuses("Aa=128*Bb=2", 18);
    refuses("Aa=128*Bb=128*Cc=4", 18);
    refuses("Aa=128*Bb=128*Cc=128*Dd=128*Ee=16", 18);
    refuses("Aa=64*Bb=64*Cc=64*Dd=64*Ee=64*Ff=4", 18);
    refuses(joined(6, 240, "*"), 18);
    // With more names it would wrap in 64 bits: 240 to the power of 16 has the factor 2 to the power of 64, and so has 128 to the power of
    // 10. There is room for 36 of them.
    for names in 7..=36 {
        refuses(joined(names, 240, "*"), 18);
        refuses(joined(names, 128, "/"), 18);
    }
    assert_eq!(joined(36, 240, "*").len(), 251);
}

#[test]
fn the_whole_text_is_judged_by_17_before_18_is_asked() {
    let seven = joined(7, 2, "*");
    for end in ["*", "/", "/Zz=2", "*Zz", "*Zz=", "*Zz=1", "*Zz=241", "*Z=2", "*Aa=2", "*(Zz=2", ")", " ", "\n", "*Zz=02", "()"] {
        refuses(seven.clone() + end, 17);
        refuses("Aa=240*Bb=240".to_string() + end, 17);
    }
    refuses(seven.clone() + "*Zz=2", 18);
    refuses(format!("({seven}"), 17);
    refuses(format!("{seven}*{seven}"), 17);
    refuses("Aa=240/Aa=240", 17);
    refuses("Aa=241*Bb=240", 17);
    refuses("Aa=240*Bb=240/Cc=2", 17);
    // The equal names are the first and the last of fifty.
    refuses(joined(50, 2, "*") + "*Aa=2", 17);
}

#[test]
fn the_buffer_is_asked_about_first() {
    for entries in &BOTH {
        for text in ["", "x", "Hut=2/Pier=2", "Aa=240*Bb=2", &"(".repeat(FORMULA + 1)] {
            for length in [0, 1, 34, SHEET - 1] {
                let mut sheet = pattern(length);
                assert_eq!((entries.formula)(text.as_bytes(), &mut sheet), (6, [0]), "{}", entries.title);
                assert_eq!(sheet, pattern(length), "{}", entries.title);
            }
        }
        // `p:Hut`, a tab, `p:Pier` and a line end, then four lines of four bytes.
        let mut sheet = pattern(SHEET);
        assert_eq!((entries.formula)(b"Hut=2/Pier=2", &mut sheet), (0, [29]), "{}", entries.title);
        assert_eq!(sheet[29..], pattern(SHEET)[29..], "{}", entries.title);
    }
}

#[test]
fn the_length_counts_every_digit_and_every_letter() {
    // Each name within those before it, so that its level is the number of the run of plots that it is in: runs of these lengths. In the
    // first line a name of 12 letters takes 15 bytes.
    let cases = [
        ("Longestname1=240", &[1][..]),
        ("Longestname1=120/Longestname2=2", &[2, 1]),
        ("Longestname1=15/Longestname2=2/Longestname3=2/Longestname4=2/Longestname5=2", &[16, 8, 4, 2, 1]),
        ("Longestname1=7/Longestname2=2/Longestname3=2/Longestname4=2/Longestname5=2/Longestname6=2", &[32, 16, 8, 4, 2, 1]),
    ];
    for (text, runs) in cases {
        let plots = Structure::of(text).plots();
        let cells = runs.iter().flat_map(|run| (0..plots).map(move |u| (u / run + 1).to_string().len() + 1));
        let expected = 15 * runs.len() + cells.sum::<usize>();
        for entries in &BOTH {
            assert_eq!(written(entries.formula, text.as_bytes()).map(|sheet| sheet.len()), Ok(expected), "{}: {text}", entries.title);
        }
    }
}

/// A formula as a text tells it, by another road than the two implementations: its names in the order written, their counts, and which
/// of them each is nested in. Only for texts that are formulas.
struct Structure {
    names: Vec<String>,
    counts: Vec<usize>,
    nested: Vec<Vec<bool>>,
}

impl Structure {
    fn of(text: &str) -> Structure {
        let bytes = text.as_bytes();
        let ends: Vec<usize> = (0..bytes.len()).filter(|&at| bytes[at] == b'=').collect();
        let name = |&at: &usize| text[..at].rsplit(|c: char| !c.is_ascii_alphanumeric()).next().unwrap_or("").to_string();
        let count = |&at: &usize| text[at + 1..].split(|c: char| !c.is_ascii_digit()).next().and_then(|digits| digits.parse().ok());
        let inside = |outer: usize, inner: usize| outer < inner && is_nested(bytes, ends[outer], ends[inner]);
        Structure {
            names: ends.iter().map(name).collect(),
            counts: ends.iter().map(|at| count(at).expect("a count")).collect(),
            nested: (0..ends.len()).map(|inner| (0..ends.len()).map(|outer| inside(outer, inner)).collect()).collect(),
        }
    }

    fn plots(&self) -> usize {
        self.counts.iter().product()
    }

    /// The number that a plot has of a name, from 0.
    fn number(&self, plot: usize, name: usize) -> usize {
        plot / self.counts[name + 1..].iter().product::<usize>() % self.counts[name]
    }

    fn agree(&self, u: usize, v: usize, name: usize) -> bool {
        let told_by = |other: usize| other == name || self.nested[name][other];
        (0..self.names.len()).all(|other| !told_by(other) || self.number(u, other) == self.number(v, other))
    }

    /// The number of sets of names that have, with each name, all that it is nested in. The infimum of two such sets' factors is that of
    /// their union, the supremum that of their intersection, and the columns are those of one name each: so many members has the family.
    fn members(&self) -> usize {
        let names = self.names.len();
        let whole = |set: usize| {
            let has = |name: usize| set >> name & 1 == 1;
            (0..names).all(|name| !has(name) || (0..names).all(|outer| !self.nested[name][outer] || has(outer)))
        };
        (0..1usize << names).filter(|&set| whole(set)).count()
    }
}

/// Whether the operator that parts two names, by their equals signs, is a slash: one outside the deepest bracket that both stand in and in
/// none deeper.
fn is_nested(text: &[u8], outer: usize, inner: usize) -> bool {
    let mut depth = 0i32;
    let mut operators = Vec::new();
    for &byte in &text[outer..inner] {
        depth += i32::from(byte == b'(') - i32::from(byte == b')');
        operators.extend((byte == b'/' || byte == b'*').then_some((depth, byte)));
    }
    operators.iter().min_by_key(|(depth, _)| *depth).is_some_and(|(_, byte)| *byte == b'/')
}

/// What is said of an accepted formula's sheet, from the two texts alone.
fn judged(text: &str, sheet: &[u8]) {
    let structure = Structure::of(text);
    let sheet = std::str::from_utf8(sheet).expect("the sheet is ASCII");
    let mut rows = sheet.strip_suffix('\n').expect("a line end").split('\n').map(|row| row.split('\t').collect::<Vec<_>>());
    let titles: Vec<String> = structure.names.iter().map(|name| format!("p:{name}")).collect();
    assert_eq!(rows.next().expect("a first line"), titles, "{text}");
    let levels: Vec<Vec<usize>> = rows.map(|row| row.iter().map(|level| level.parse().expect("a level")).collect()).collect();
    assert_eq!(levels.len(), structure.plots(), "{text}");
    for name in 0..titles.len() {
        let mut most = 0;
        for u in 0..levels.len() {
            assert_eq!(levels[u].len(), titles.len(), "{text}");
            let level = levels[u][name];
            assert!((1..=most + 1).contains(&level), "{text}: numbered by first appearance");
            most = most.max(level);
            for (v, earlier) in levels[..u].iter().enumerate() {
                assert_eq!(level == earlier[name], structure.agree(u, v, name), "{text}: plots {v} and {u}");
            }
        }
    }
}

/// The sheet is read with a plot column for each name and no treatment column, and its plot design is refused by 8 or not at all.
fn read_and_designed(entries: &Entries, text: &str, sheet: &[u8]) -> u32 {
    let structure = Structure::of(text);
    let (plots, names, members) = (structure.plots(), structure.names.len(), structure.members());
    let mut levels = vec![0; LEVELS];
    let read = (entries.read_sheet)(sheet, &mut levels);
    assert_eq!(read, (0, [plots as u64, names as u64, 0]), "{}: {text}", entries.title);
    let found = (entries.plot_design)(&levels, plots, names, &mut vec![0; FAMILY]);
    let expected = if members > MEMBERS { (8, [0; 3]) } else { (0, [0, 0, members as u64]) };
    assert_eq!(found, expected, "{}: {text}", entries.title);
    found.0
}

#[test]
fn every_sheet_is_read_and_its_plot_design_is_refused_by_8_or_not_at_all() {
    let (mut accepted, mut large) = (0, 0);
    for index in 0..4000 {
        let text = String::from_utf8(formula::whole(&mut Random::of(11, 0, index))).expect("a formula is ASCII");
        for entries in &BOTH {
            let Ok(sheet) = written(entries.formula, text.as_bytes()) else { continue };
            judged(&text, &sheet);
            // The literal design takes long on many plots; the fast one is compared with it elsewhere.
            let small = Structure::of(&text).plots() <= 32;
            let number = read_and_designed(if small { entries } else { &FAST }, &text, &sheet);
            accepted += usize::from(number == 0);
            large += usize::from(number == 8);
        }
    }
    assert!(accepted > 2000 && large > 10, "{accepted} accepted, {large} refused by 8");
}

/// All formulas over these items, in this order, in which a list has two parts or more and brackets stand around lists alone.
fn all_formulas(items: &[&str]) -> Vec<String> {
    if items.len() == 1 {
        return vec![items[0].to_string()];
    }
    let lists = lists(items);
    ["/", "*"].iter().flat_map(|operator| lists.iter().map(move |list| list.join(operator))).collect()
}

/// The items as one part of a list: an item, or a formula in brackets.
fn parts(items: &[&str]) -> Vec<String> {
    let brackets = |text: String| if items.len() == 1 { text } else { format!("({text})") };
    all_formulas(items).into_iter().map(brackets).collect()
}

/// The items as a list of two parts or more, in all ways.
fn lists(items: &[&str]) -> Vec<Vec<String>> {
    let mut found = Vec::new();
    for taken in 1..items.len() {
        let (first, rest) = items.split_at(taken);
        let one = parts(rest).into_iter().map(|part| vec![part]);
        for rest in one.chain(lists(rest)) {
            found.extend(parts(first).into_iter().map(|first| [&[first][..], &rest].concat()));
        }
    }
    found
}

#[test]
fn every_formula_of_few_names() {
    // With four names there is one list alone, two lists in five ways and three in five, and each has one of two operators.
    for (items, number) in [
        (&["Aa=2"][..], 1),
        (&["Aa=3", "Bb=2"], 2),
        (&["Aa=2", "Bb=3", "Cc=2"], 2 + 2 * 4),
        (&["Aa=2", "Bb=3", "Cc=2", "Dd=2"], 2 + 5 * 4 + 5 * 8),
    ] {
        let all = all_formulas(items);
        assert_eq!(all.len(), number);
        for text in all {
            for entries in &BOTH {
                let sheet = written(entries.formula, text.as_bytes()).expect("a formula");
                judged(&text, &sheet);
                read_and_designed(entries, &text, &sheet);
            }
        }
    }
}

#[test]
fn structures_with_known_families() {
    // Chains of n have n + 1 members, n names crossed 2 to the power of n.
    let size = |text: &str| {
        let sheet = written(FAST.formula, text.as_bytes()).expect("a formula");
        read_and_designed(&FAST, text, &sheet);
        Structure::of(text).members()
    };
    assert_eq!(size("Hut=2/Pier=2"), 3);
    assert_eq!(size(&joined(6, 2, "/")), 7);
    assert_eq!(size(&joined(5, 2, "*")), 32);
    assert_eq!(size(&joined(6, 2, "*")), 64);
    // Rows and columns in blocks: U, blocks, rows, columns, plots.
    assert_eq!(size("Block=4/(Row=5*Column=4)"), 5);
    // 2 to the power of 4 in the bracket, and one more for the first name.
    assert_eq!(size("Aa=2/(Bb=2*Cc=2*Dd=2*Ee=2)"), 17);
}

#[test]
fn every_text_of_up_to_four_bytes() {
    // Only a name of two bytes and a count of one digit are a formula.
    let alphabet = b"Aa=23()/*0";
    let mut texts: Vec<Vec<u8>> = vec![Vec::new()];
    let mut formulas = 0;
    for length in 1..=4 {
        texts = texts.iter().flat_map(|text| alphabet.iter().map(move |&byte| [&text[..], &[byte]].concat())).collect();
        for text in &texts {
            let form = [&b"Aa"[..], b"Aa230", b"=", b"23"];
            let expected = length == 4 && text.iter().zip(form).all(|(byte, allowed)| allowed.contains(byte));
            refuses(text, if expected { 0 } else { 17 });
            formulas += usize::from(expected);
        }
    }
    assert_eq!(formulas, 2 * 5 * 2);
}
