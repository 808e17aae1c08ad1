//! Names of members: the rules in their order, what they look at, and the questions before them.

mod common;

use common::*;
use compare::case::{self, Case};
use compare::entries::titled;
use compare::memory::GUARD;
use compare::names::{self, Mistake, MISTAKES};
use reference::{Entries, Level, FAST, LITERAL, NAME, TEXT};
use std::collections::BTreeMap;

/// The kinds of families.
const PLOT: u32 = 0;
const TREATMENT: u32 = 1;

/// The levels of a sheet whose columns are written as digits, one a plot: plot columns and treatment columns.
fn table(plot_columns: &[&str], treatment_columns: &[&str]) -> Vec<Level> {
    let levels = |columns: &[&str]| columns.iter().map(|column| digits(column)).collect::<Vec<Vec<Level>>>();
    level_table(&levels(plot_columns), &levels(treatment_columns))
}

fn digits(column: &str) -> Vec<Level> {
    column.bytes().map(|digit| Level::from(digit - b'0')).collect()
}

/// The name of the last of these members, each written as digits, or the refusal. Bytes past the name, and all after a refusal, are as
/// before.
fn asked(entries: &Entries, line: &str, levels: &[Level], members: &[&str], kind: u32) -> Result<String, u32> {
    let members: Vec<Vec<u8>> = members.iter().map(|member| member.bytes().map(|digit| digit - b'0').collect()).collect();
    let (text, plots) = (line.replace(' ', "\t") + "\n", members[0].len());
    let mut name = pattern(NAME + 9);
    let family = family_buffer(&members);
    let (refusal, [length]) = (entries.name)(text.as_bytes(), levels, &family, plots, members.len(), kind, members.len(), &mut name);
    let length = length as usize;
    assert_eq!(name[length..], pattern(NAME + 9)[length..], "{}: bytes past the name", entries.title);
    let found = String::from_utf8(name[..length].to_vec()).expect("the name is ASCII");
    if refusal == 0 { Ok(found) } else { Err(refusal) }
}

/// Both give this name.
fn named(line: &str, levels: &[Level], members: &[&str], kind: u32, expected: &str) {
    for entries in &BOTH {
        assert_eq!(asked(entries, line, levels, members, kind), Ok(expected.to_string()), "{}: {line}", entries.title);
    }
}

#[test]
fn naming_asks_2_3_6_7_15_in_that_order() {
    let family = family_buffer(&[vec![1, 1], vec![1, 2]]);
    let unordered = family_buffer(&[vec![1, 2], vec![1, 1]]);
    let (full, missing) = (level_table(&[vec![1, 2]], &[vec![1, 1]]), level_table(&[vec![1, 0]], &[vec![1, 1]]));
    for entries in &BOTH {
        let mut name = pattern(NAME);
        let mut asked = |text: &[u8], levels: &[Level], family: &[u8], size, place| {
            (entries.name)(text, levels, family, 2, size, 0, place, &mut name)
        };
        assert_eq!(asked(b"", &[], &[], 0, 0), (2, [0]));
        assert_eq!(asked(&[b'p'; TEXT + 1], &[], &[], 0, 0), (2, [0]));
        assert_eq!(asked(b"p:Hut", &[], &[], 0, 0), (3, [0]));
        assert_eq!(asked(b"p:Hut\nrubbish", &[], &[], 0, 0), (6, [0]));
        assert_eq!(asked(b"p:Hut\nrubbish", &missing, &unordered, 2, 3), (6, [0]));
        assert_eq!(asked(b"p:Hut\nrubbish", &missing, &unordered, 2, 2), (7, [0]));
        assert_eq!(asked(b"p:Hut\nrubbish", &full, &unordered, 2, 2), (15, [0]));
        assert_eq!(asked(b"p:Hut\nrubbish", &full, &family, 2, 2), (0, [1]));
        assert_eq!(name[0], b'E');
        let mut short = pattern(NAME - 1);
        assert_eq!((entries.name)(b"p:Hut\n", &full, &family, 2, 2, 0, 2, &mut short), (6, [0]));
        assert_eq!(short, pattern(NAME - 1));
        assert_eq!((entries.name)(b"p:Hut\n", &missing, &family, 2, 2, 9, 1, &mut name), (7, [0]));
        let treatment = (entries.name)(b"t:Gain\n", &missing, &family, 2, 2, 9, 1, &mut name);
        assert_eq!((treatment, name[0]), ((0, [1]), b'U'));
    }
}

#[test]
fn an_infimum_lists_all_its_finest_coarser_columns() {
    let columns = [vec![1, 1, 2, 2, 1, 1, 2, 2], vec![1, 2, 1, 2, 1, 2, 1, 2], vec![1, 2, 2, 1, 1, 2, 2, 1]];
    let member = vec![1, 2, 3, 4, 1, 2, 3, 4];
    for entries in &BOTH {
        let mut name = pattern(NAME);
        let levels = level_table(&columns, &[]);
        let family = family_buffer(&[member.clone()]);
        let (number, [length]) = (entries.name)(b"p:Aa\tt:Dd\tp:Bb\tp:Cc\n", &levels, &family, 8, 1, 0, 1, &mut name);
        assert_eq!((number, &name[..length as usize]), (0, &b"I(Aa,Bb,Cc)"[..]), "{}", entries.title);
        let twice = level_table(&[columns[0].clone(), columns[1].clone(), columns[0].clone(), vec![5; 8]], &[]);
        let (number, [length]) =
            (entries.name)(b"p:Aa\tp:Bb\tp:Cc\tp:Dd\n", &twice, &family, 8, 1, 0, 1, &mut name);
        assert_eq!((number, &name[..length as usize]), (0, &b"I(Aa,Bb)"[..]), "{}", entries.title);
        let (number, [length]) = (entries.name)(b"p:Aa\n", &levels, &family, 8, 1, 0, 1, &mut name);
        assert_eq!((number, &name[..length as usize]), (0, &b"#1"[..]), "{}", entries.title);
    }
}

#[test]
fn the_longest_infimum_fits() {
    // Six two-level columns on 64 plots doubled: their infimum has 64 classes of two plots.
    let names: Vec<String> = (0..6).map(|c| format!("t:Abcdefghijk{c}")).collect();
    let columns: Vec<Vec<Level>> = (0..6).map(|c| (0..128).map(|u: usize| (u >> c & 1) as Level + 1).collect()).collect();
    let member: Vec<u8> = (0..128).map(|u| (u % 64 + 1) as u8).collect();
    for entries in &BOTH {
        let mut name = pattern(NAME);
        let text = names.join("\t") + "\n";
        let levels = level_table(&[], &columns);
        let family = family_buffer(&[member.clone()]);
        let answer = (entries.name)(text.as_bytes(), &levels, &family, 128, 1, 1, 1, &mut name);
        assert_eq!(answer, (0, [80]), "{}", entries.title);
        assert_eq!(name[80..], pattern(NAME)[80..]);
    }
}

/// Two pairings of four plots twice: their supremum has two classes.
const PAIRS: [&str; 2] = ["11223344", "12123434"];
const HALVES: &str = "11112222";

#[test]
fn a_supremum_lists_its_columns() {
    named("p:Aa p:Bb", &table(&PAIRS, &[]), &[HALVES], PLOT, "S(Aa,Bb)");
    named("t:Aa t:Bb", &table(&[], &PAIRS), &[HALVES], TREATMENT, "S(Aa,Bb)");
    named("p:Aa t:Bb", &table(&PAIRS[..1], &PAIRS[1..]), &[HALVES], TREATMENT, "S(Aa,Bb)");
    // The place does not matter, nor whether the family is closed.
    named("p:Aa p:Bb", &table(&PAIRS, &[]), &["11111111", "11111112", HALVES], PLOT, "S(Aa,Bb)");
}

#[test]
fn plot_columns_come_first_whatever_the_order_of_the_line() {
    let levels = table(&PAIRS[..1], &PAIRS[1..]);
    named("t:Bb p:Aa", &levels, &[HALVES], TREATMENT, "S(Aa,Bb)");
    let levels = table(&PAIRS[1..], &PAIRS[..1]);
    named("t:Aa p:Bb", &levels, &[HALVES], TREATMENT, "S(Bb,Aa)");
}

#[test]
fn a_treatment_member_looks_at_plot_columns() {
    // Equal to a plot column alone.
    named("p:Hut t:Gain", &table(&["1122"], &["1212"]), &["1122"], TREATMENT, "S(Hut)");
    named("p:Hut t:Gain", &table(&["1122"], &["1234"]), &["1122"], TREATMENT, "S(Hut)");
    named("p:Hut p:Pier", &table(&["1122", "3344"], &[]), &["1122"], TREATMENT, "S(Hut)");
    // Its own column has its name, though a plot column is equivalent.
    named("p:Hut t:Gain", &table(&["1122"], &["7733"]), &["1122"], TREATMENT, "Gain");
    // The infimum looks at columns of its own kind alone.
    named("p:Aa p:Bb", &table(&["11221122", "12121212"], &[]), &["12341234"], TREATMENT, "#1");
    named("p:Aa p:Bb", &table(&["11221122", "12121212"], &[]), &["12341234"], PLOT, "I(Aa,Bb)");
}

#[test]
fn a_plot_member_looks_at_plot_columns_alone() {
    named("p:Aa t:Bb", &table(&PAIRS[..1], &PAIRS[1..]), &[HALVES], PLOT, "#1");
    named("t:Aa t:Bb", &table(&[], &PAIRS), &["11111112", HALVES], PLOT, "#2");
    named("p:Hut t:Gain", &table(&["1212"], &["1122"]), &["1122"], PLOT, "#1");
}

#[test]
fn of_equivalents_the_first_is_listed() {
    // A plot column and a treatment column.
    named("p:Aa t:Gg t:Bb", &table(&PAIRS[..1], &[PAIRS[0], PAIRS[1]]), &[HALVES], TREATMENT, "S(Aa,Bb)");
    named("t:Gg t:Bb p:Aa", &table(&PAIRS[..1], &["55667788", PAIRS[1]]), &[HALVES], TREATMENT, "S(Aa,Bb)");
    // Two of one kind.
    named("p:Aa p:Bb p:Cc p:Dd", &table(&[PAIRS[1], PAIRS[0], PAIRS[1], PAIRS[0]], &[]), &[HALVES], PLOT, "S(Aa,Bb)");
    named("t:Aa t:Bb t:Cc t:Dd", &table(&[], &[PAIRS[0], PAIRS[0], PAIRS[1], PAIRS[1]]), &[HALVES], TREATMENT, "S(Aa,Cc)");
}

#[test]
fn only_columns_with_no_coarser_one_among_them_are_listed() {
    let (singles, three) = ("12345678", "11223333");
    // The single plots are finer than all, and Bb is finer than Cc.
    named("p:Aa p:Bb p:Cc", &table(&[singles, PAIRS[0], three], &[]), &[three], TREATMENT, "S(Cc)");
    named("p:Aa p:Bb p:Cc", &table(&[singles, PAIRS[0], PAIRS[1]], &[]), &[HALVES], PLOT, "S(Bb,Cc)");
    named("p:Aa p:Bb p:Cc p:Dd", &table(&[singles, PAIRS[0], three, PAIRS[1]], &[]), &[HALVES], PLOT, "S(Cc,Dd)");
    // A coarser column of the other kind counts.
    named("p:Aa p:Bb t:Cc", &table(&PAIRS, &[three]), &[HALVES], TREATMENT, "S(Bb,Cc)");
    // The coarser column is not finer than the member: it is not among them.
    named("p:Aa p:Bb p:Cc", &table(&[PAIRS[0], PAIRS[1], "11111122"], &[]), &[HALVES], PLOT, "S(Aa,Bb)");
}

#[test]
fn all_of_these_are_listed_though_fewer_would_do() {
    let third = "12213443";
    named("p:Aa p:Bb p:Cc", &table(&[PAIRS[0], PAIRS[1], third], &[]), &[HALVES], PLOT, "S(Aa,Bb,Cc)");
    named("p:Aa t:Bb t:Cc", &table(&[third], &PAIRS), &[HALVES], TREATMENT, "S(Aa,Bb,Cc)");
}

#[test]
fn an_infimum_comes_before_a_supremum() {
    // 4 classes of 4 plots: crossed halves, and the supremum of two ways to cut each class into pairs.
    let coarse = ["1111111122222222", "1111222211112222"];
    let fine = ["1122334455667788", "1212343456567878"];
    let member = "1111222233334444";
    let line = "p:Aa p:Bb p:Cc p:Dd";
    named(line, &table(&[coarse[0], coarse[1], fine[0], fine[1]], &[]), &[member], PLOT, "I(Aa,Bb)");
    named("t:Aa t:Bb t:Cc t:Dd", &table(&[], &[coarse[0], coarse[1], fine[0], fine[1]]), &[member], TREATMENT, "I(Aa,Bb)");
    named("t:Aa t:Bb p:Cc p:Dd", &table(&fine, &coarse), &[member], TREATMENT, "I(Aa,Bb)");
    // With the coarse columns of the other kind it is the supremum of the others.
    named("p:Aa p:Bb t:Cc t:Dd", &table(&coarse, &fine), &[member], TREATMENT, "S(Cc,Dd)");
    named("t:Aa t:Bb p:Cc p:Dd", &table(&fine, &coarse), &[member], PLOT, "S(Cc,Dd)");
    // A treatment member that a plot column gives and the infimum of treatment columns too.
    named("t:Aa t:Bb p:Cc", &table(&[member], &coarse), &[member], TREATMENT, "I(Aa,Bb)");
}

#[test]
fn a_member_that_is_no_supremum_of_columns_has_its_place() {
    // No column is finer; no column at all of a kind that is looked at; a column that is finer and not it; two columns whose supremum is
    // finer.
    named("p:Aa", &table(&["11112222"], &[]), &["11221122"], PLOT, "#1");
    named("p:Aa t:Bb", &table(&["11112222"], &["12121212"]), &["11221122"], TREATMENT, "#1");
    named("t:Aa", &table(&[], &[PAIRS[0]]), &[HALVES], PLOT, "#1");
    named("p:Aa", &table(&[PAIRS[0]], &[]), &[HALVES], PLOT, "#1");
    named("p:Aa p:Bb", &table(&["12345566", "11234567"], &[]), &[HALVES], PLOT, "#1");
    // A column of single plots alone is finer, and its supremum is E; so are two of them.
    named("p:Aa", &table(&["12345678"], &[]), &[HALVES], PLOT, "#1");
    named("p:Aa t:Bb", &table(&["12345678"], &["87654321"]), &[HALVES], TREATMENT, "#1");
    // A column of one class is finer than U alone.
    named("p:Aa p:Bb", &table(&["11111111", PAIRS[0]], &[]), &[HALVES], PLOT, "#1");
}

#[test]
fn chains_of_several_steps_join_plots() {
    // A ring of eight plots and one of four: each step goes to the next plot of the ring.
    named("p:Aa p:Bb", &table(&["112233445566", "122334415665"], &[]), &["111111112222"], PLOT, "S(Aa,Bb)");
    // Without the last link it is a chain, from one end to the other.
    named("p:Aa t:Bb", &table(&["112233445566"], &["122334475668"]), &["111111112222"], TREATMENT, "S(Aa,Bb)");
}

#[test]
fn u_and_e_stay_u_and_e() {
    for kind in [PLOT, TREATMENT] {
        named("p:Aa t:Bb", &table(&["1111"], &["1111"]), &["1111"], kind, "U");
        named("p:Aa t:Bb", &table(&["4321"], &["1234"]), &["1234"], kind, "E");
        named("p:Aa t:Bb", &table(&["1"], &["1"]), &["1"], kind, "U");
    }
}

#[test]
fn question_7_covers_every_column_looked_at() {
    let (good, hole) = ("1122", "1102");
    let asked = |line: &str, plot: &[&str], treatment: &[&str], kind| {
        let found = BOTH.map(|entries| asked(&entries, line, &table(plot, treatment), &["1111"], kind).err());
        assert_eq!(found[0], found[1], "{line}");
        found[0]
    };
    // A hole in a treatment column is no matter to a plot family, one in a plot column is to both.
    assert_eq!(asked("p:Aa t:Bb", &[good], &[hole], PLOT), None);
    assert_eq!(asked("p:Aa t:Bb", &[good], &[hole], TREATMENT), Some(7));
    assert_eq!(asked("p:Aa t:Bb", &[hole], &[good], PLOT), Some(7));
    assert_eq!(asked("p:Aa t:Bb", &[hole], &[good], TREATMENT), Some(7));
    // The last of six columns of each kind.
    let six = |last| [good, good, good, good, good, last];
    let line = "p:Aa p:Bb p:Cc p:Dd p:Ee p:Ff t:Gg t:Hh t:Ii t:Jj t:Kk t:Ll";
    assert_eq!(asked(line, &six(good), &six(good), TREATMENT), None);
    assert_eq!(asked(line, &six(hole), &six(good), TREATMENT), Some(7));
    assert_eq!(asked(line, &six(good), &six(hole), TREATMENT), Some(7));
    assert_eq!(asked(line, &six(good), &six(hole), PLOT), None);
    // The first line counts the columns: one that it does not have may be missing, and so may cells past the plots.
    assert_eq!(asked("t:Bb", &[hole], &[good], TREATMENT), None);
    assert_eq!(asked("p:Aa t:Bb", &[good, hole], &[good, hole], TREATMENT), None);
    assert_eq!(asked("p:Aa t:Bb", &["11220"], &["11220"], TREATMENT), None);
    assert_eq!(asked("p:Aa p:Cc t:Bb", &[good, hole], &[good, hole], TREATMENT), Some(7));
}

#[test]
fn a_name_takes_160_bytes_however_short_it_is() {
    let (levels, family) = (table(&["1122"], &["1212"]), family_buffer(&[vec![1; 4]]));
    for entries in &BOTH {
        for (length, expected) in [(0, 6), (80, 6), (95, 6), (96, 6), (158, 6), (159, 6), (160, 0), (161, 0), (300, 0)] {
            for kind in [PLOT, TREATMENT] {
                let mut name = pattern(length);
                let (refusal, [written]) = (entries.name)(b"p:Aa\tt:Bb\n", &levels, &family, 4, 1, kind, 1, &mut name);
                assert_eq!((refusal, written), (expected, u64::from(expected == 0)), "{}: {length}", entries.title);
                assert_eq!(name[written as usize..], pattern(length)[written as usize..]);
            }
        }
    }
    assert_eq!(NAME, 160);
}

/// Names of 12 letters, one for each of 12 columns.
fn long_names() -> Vec<String> {
    (1..=12).map(|c| format!("Longestnam{c:02}")).collect()
}

#[test]
fn a_name_of_158_bytes() {
    // Twelve plots in one class and twelve in the other; in column c plot c is apart.
    let column = |c: usize| (0..24).map(|u| if u >= 12 { 1 } else { 2 + Level::from(u == c) }).collect::<Vec<Level>>();
    let columns: Vec<Vec<Level>> = (0..12).map(column).collect();
    let levels = level_table(&columns[..6], &columns[6..]);
    let titles = long_names().into_iter().enumerate().map(|(c, name)| format!("{}:{name}", if c < 6 { 'p' } else { 't' }));
    let text = titles.collect::<Vec<_>>().join("\t") + "\n";
    let family = family_buffer(&[(0..24).map(|u| 1 + u / 12).collect()]);
    let expected = format!("S({})", long_names().join(","));
    assert_eq!(expected.len(), 158);
    for entries in &BOTH {
        let mut name = pattern(NAME);
        assert_eq!((entries.name)(text.as_bytes(), &levels, &family, 24, 1, TREATMENT, 1, &mut name), (0, [158]), "{}", entries.title);
        assert_eq!(name[..158], *expected.as_bytes(), "{}", entries.title);
        assert_eq!(name[158..], pattern(NAME)[158..], "{}", entries.title);
    }
}

/// A sheet on 64 plots, accepted, whose table has the longest name: plots are the numbers below 64 with six bits. All columns tell bit 0,
/// and each tells one more sum of bits: the plot columns six of the seven sums of bits 1, 2 and 3, the treatment columns six of the seven
/// sums of bits 3, 4 and 5. The seventh is bit 3 for both. What all twelve have in common is bit 0.
fn longest_sheet() -> Vec<u8> {
    let sums = [0b000010, 0b000100, 0b000110, 0b001010, 0b001100, 0b001110, 0b010000, 0b100000, 0b110000, 0b011000, 0b101000, 0b111000];
    let level = |u: u32, sum: u32| 2 * (u & 1) + (u & sum).count_ones() % 2 + 1;
    let names = long_names();
    let column = |c: usize| (names[c].as_str(), (0..64).map(|u| level(u, sums[c])).collect::<Vec<Level>>());
    let columns: Vec<(&str, Vec<Level>)> = (0..12).map(column).collect();
    sheet(&columns[..6], &columns[6..])
}

#[test]
fn a_printed_name_of_158_bytes() {
    let names = long_names();
    let (plot, both) = (format!("S({})", names[..6].join(",")), format!("S({})", names.join(",")));
    for entries in &BOTH {
        let table = output(entries, &longest_sheet());
        let line = format!("{plot}\t{both}\t1\n");
        assert!(table.contains(&line), "{}: {table}", entries.title);
        // Bit 0 and bit 3 together: in both families, and no column is finer.
        assert!(table.contains("#"), "{}: {table}", entries.title);
        assert!(table.ends_with("=all\t=total\t64\n"), "{}", entries.title);
        let longest = table.split(['\t', '\n']).map(str::len).max();
        assert_eq!(longest, Some(158), "{}", entries.title);
    }
}

/// Both implementations, and the rules said a third time, give a name to every member that this trial can have.
fn same_as_the_rules(columns: &[Vec<Vec<Level>>; 2], members: &[Partition]) -> [usize; 6] {
    let levels = level_table(&columns[0], &columns[1]);
    let titles = |kind: char, count: usize| (0..count).map(move |c| format!("{kind}:{}{c}", kind.to_ascii_uppercase()));
    let line = titles('t', columns[1].len()).chain(titles('p', columns[0].len())).collect::<Vec<_>>().join("\t") + "\n";
    let mut forms = [0; 6];
    for member in members {
        let family = family_buffer(std::slice::from_ref(member));
        for kind in [PLOT, TREATMENT] {
            let expected = names::name(line.as_bytes(), &levels, &family, member.len(), kind, 1, Mistake::None);
            forms[form(&expected)] += 1;
            for entries in &BOTH {
                let mut name = pattern(NAME);
                let answer = (entries.name)(line.as_bytes(), &levels, &family, member.len(), 1, kind, 1, &mut name);
                let same = answer == (0, [expected.len() as u64]) && name[..expected.len()] == expected;
                assert!(same, "{}: {columns:?}, {member:?}, kind {kind}", entries.title);
            }
        }
    }
    forms
}

/// The rule that a name follows, from 0: U, E, a column, I(, S( or #.
fn form(name: &[u8]) -> usize {
    match name {
        b"U" => 0,
        b"E" => 1,
        [b'I', b'(', ..] => 3,
        [b'S', b'(', ..] => 4,
        [b'#', ..] => 5,
        _ => 2,
    }
}

#[test]
fn every_member_of_every_two_columns_on_few_plots() {
    let mut forms = [0; 6];
    for plots in 1..=5 {
        let all = partitions(plots);
        let levels = |column: &Partition| column.iter().map(|&class| Level::from(class)).collect::<Vec<Level>>();
        for a in &all {
            for b in &all {
                for columns in [[vec![levels(a), levels(b)], vec![]], [vec![levels(a)], vec![levels(b)]]] {
                    let found = same_as_the_rules(&columns, &all);
                    (0..6).for_each(|i| forms[i] += found[i]);
                }
            }
        }
    }
    assert!(forms.iter().all(|&times| times > 100), "{forms:?}");
}

#[test]
fn every_member_of_three_columns_on_four_plots() {
    let all = partitions(4);
    let levels = |column: &Partition| column.iter().map(|&class| Level::from(class)).collect::<Vec<Level>>();
    for a in &all {
        for b in &all {
            for c in &all {
                same_as_the_rules(&[vec![levels(a)], vec![levels(b), levels(c)]], &all);
                same_as_the_rules(&[vec![levels(a), levels(b)], vec![levels(c)]], &all);
            }
        }
    }
}

/// In random calls both give the name of the rules; each rule names many members, and each mistake shows.
#[test]
fn random_calls_have_names_of_every_form_and_show_every_mistake() {
    let entry = titled("name").expect("an entry");
    let (mut forms, mut shown) = ([0; 6], BTreeMap::new());
    for index in 0..4000 {
        let call = entry.call(16, index);
        let found = (entry.run)(&call, &FAST);
        assert_eq!(found.difference(&(entry.run)(&call, &LITERAL)), None, "{index}");
        if found.refusal != 0 {
            continue;
        }
        let name = &found.bytes[0][GUARD..GUARD + found.answer[0] as usize];
        let by_rules = |mistake| {
            names::name(&call.text, &call.levels, &call.families[0], call.plots, call.kind as u32, call.place, mistake)
        };
        assert_eq!(name, by_rules(Mistake::None), "{index}");
        forms[form(name)] += 1;
        for (mistake, title) in &MISTAKES[1..] {
            *shown.entry(*title).or_insert(0) += usize::from(by_rules(*mistake) != name);
        }
    }
    println!("names by form {forms:?}, mistakes shown {shown:#?}");
    assert!(forms.iter().all(|&times| times > 40), "{forms:?}");
    assert!(shown.len() == MISTAKES.len() - 1 && shown.values().all(|&times| times > 2), "{shown:#?}");
}

/// Random sheets have suprema among their sources and strata, and in each refusal that names members.
#[test]
fn random_sheets_print_suprema() {
    let entry = titled("skeleton").expect("an entry");
    let mut seen = BTreeMap::new();
    for index in 0..4000 {
        let call = entry.call(16, index);
        let found = (entry.run)(&call, &FAST);
        let text = String::from_utf8_lossy(&found.bytes[0][GUARD..GUARD + found.answer[0] as usize]).into_owned();
        let refused = text.strip_prefix("refused\t").and_then(|rest| rest.split('\t').next()).unwrap_or("0").to_string();
        let names = |wanted: &str| text.split(['\t', '\n']).any(|field| field.starts_with(wanted));
        for form in ["S(", "#"].into_iter().filter(|form| names(form)) {
            *seen.entry((refused.clone(), form)).or_insert(0) += 1;
        }
    }
    println!("{seen:?}");
    let missing: Vec<&str> = ["0", "9", "10", "12", "13"].into_iter().filter(|number| !seen.contains_key(&(number.to_string(), "S("))).collect();
    assert!(missing.is_empty(), "no supremum where this is printed: {missing:?}");
}

/// Each mistake shows in a kept case of the comparison too.
#[test]
fn kept_cases_show_every_mistake() {
    let folder = concat!(env!("CARGO_MANIFEST_DIR"), "/../compare/cases");
    let files = std::fs::read_dir(folder).expect("a folder of cases").map(|file| file.expect("a file").path());
    let texts = files.map(|path| std::fs::read_to_string(path).expect("a text"));
    let cases: Vec<Case> = texts.map(|text| case::read(&text).expect("a case")).collect();
    let names: Vec<&Case> = cases.iter().filter(|case| case.call.entry.title == "name" && !case.written.is_empty()).collect();
    for (mistake, title) in MISTAKES {
        let shows = |case: &Case| {
            let call = &case.call;
            let name = names::name(&call.text, &call.levels, &call.families[0], call.plots, call.kind as u32, call.place, mistake);
            name != case.written
        };
        assert_eq!(names.iter().any(|case| shows(case)), mistake != Mistake::None, "{title}");
    }
}
