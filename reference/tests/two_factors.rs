//! How two factors stand: the five answers, the questions before them, and the same in the relation and in the designs.

mod common;

use common::*;
use compare::call::Call;
use compare::case;
use compare::entries::titled;
use compare::names::supremum;
use compare::standing::{standing, Mistake, MISTAKES};
use reference::{Entries, FAMILY, FAST, LITERAL, MEMBERS, PLOTS};
use std::collections::BTreeMap;

/// The class numbers of a factor, a digit a plot.
fn factor(digits: &str) -> Partition {
    digits.bytes().map(|digit| digit - b'0').collect()
}

/// How one factor stands to another, each as a family of its own.
fn stands(entries: &Entries, first: &[u8], second: &[u8]) -> u64 {
    let [f, g] = [first, second].map(|member| family_buffer(&[member.to_vec()]));
    let (refusal, [answer]) = (entries.compare)(&f, 1, 1, &g, 1, 1, first.len());
    assert_eq!(refusal, 0, "{}: {first:?} {second:?}", entries.title);
    answer
}

/// Both say so of the first, and the other way round of the second.
fn stand(first: &str, second: &str, expected: u64) {
    let turned = [0, 1, 3, 2, 4, 5][expected as usize];
    for entries in &BOTH {
        assert_eq!(stands(entries, &factor(first), &factor(second)), expected, "{}: {first} {second}", entries.title);
        assert_eq!(stands(entries, &factor(second), &factor(first)), turned, "{}: {second} {first}", entries.title);
    }
}

#[test]
fn each_answer() {
    stand("1122", "1122", 1);
    stand("1234", "1122", 2);
    stand("1122", "1111", 2);
    stand("1111", "1234", 3);
    stand("1122", "1212", 4);
    stand("1122", "1112", 5);
    // One plot: U and E are one.
    stand("1", "1", 1);
    // A finer factor with classes of any size is finer first, and orthogonal after that.
    stand("1233", "1222", 2);
}

#[test]
fn orthogonal_within_each_class_of_the_supremum() {
    // The supremum is 11112222: 1 × 4 = 2 × 2. With 8 plots in place of 4 it would not hold.
    stand("11223344", "12123434", 4);
    // A class of the supremum with one class of the first: 1 × 4 = 4 × 1.
    stand("11112233", "12345656", 4);
    // Orthogonal in one class of the supremum and not in the other.
    stand("11223344", "12123334", 5);
    stand("1122334455", "1212345345", 5);
}

#[test]
fn classes_of_proportional_sizes() {
    // Rows of 3 and 6 plots, columns of 3 and 6: 1 × 9 = 3 × 3, 2 × 9 = 3 × 6, 4 × 9 = 6 × 6.
    stand("111222222", "122112222", 4);
    // One plot of the last row in the other column: 2 × 9 is not 3 × 5.
    stand("111222222", "122112221", 5);
    // Rows of 2 and 4 plots, columns of 3: 1 × 6 = 2 × 3, 2 × 6 = 4 × 3.
    stand("112222", "121212", 4);
}

#[test]
fn classes_of_one_class_of_the_supremum_that_do_not_meet() {
    // The first pair and the last share no plot and hang together over the second: 0 × 6 is not 2 × 2.
    stand("112233", "121323", 5);
    // A chain of four links.
    stand("112233", "122334", 5);
}

/// All pairs of factors on so many plots.
fn pairs(plots: usize) -> Vec<(Partition, Partition)> {
    let all = partitions(plots);
    all.iter().flat_map(|f| all.iter().map(move |g| (f.clone(), g.clone()))).collect()
}

/// On all pairs of up to six plots both say what the rules, said a third time, say; and how often each was said.
#[test]
fn all_pairs_on_up_to_six_plots() {
    let mut seen = BTreeMap::new();
    for (f, g) in (1..=6).flat_map(pairs) {
        let expected = standing(&f, &g, Mistake::None) as u64;
        BOTH.iter().for_each(|entries| assert_eq!(stands(entries, &f, &g), expected, "{}: {f:?} {g:?}", entries.title));
        *seen.entry(expected).or_insert(0) += 1;
    }
    assert_eq!(seen.keys().copied().collect::<Vec<u64>>(), [1, 2, 3, 4, 5], "{seen:?}");
    assert_eq!(seen[&2], seen[&3], "finer one way is coarser the other way: {seen:?}");
}

/// An empty A∩B needs no test of its own: where all others inside K pass, none is empty. So it is no fault to test the others alone, as
/// long as it is the size of K that stands in the test.
#[test]
fn no_cell_is_empty_where_the_others_pass() {
    for (f, g) in (1..=6).flat_map(pairs) {
        let joined = supremum(&[&f, &g], f.len(), false);
        let size = |holds: &dyn Fn(usize) -> bool| (0..f.len()).filter(|&u| holds(u)).count();
        let passes = |u: usize| {
            let [a, b, k] = [size(&|w| f[w] == f[u]), size(&|w| g[w] == g[u]), size(&|w| joined[w] == joined[u])];
            size(&|w| f[w] == f[u] && g[w] == g[u]) * k == a * b
        };
        assert_eq!((0..f.len()).all(passes), stands(&LITERAL, &f, &g) != 5, "{f:?} {g:?}");
    }
}

/// U, two ways to halve four plots, and E.
fn square() -> Vec<Partition> {
    ["1111", "1122", "1212", "1234"].map(factor).to_vec()
}

#[test]
fn places_in_one_family() {
    let family = family_buffer(&square());
    let expected = [[1, 3, 3, 3], [2, 1, 4, 3], [2, 4, 1, 3], [2, 2, 2, 1]];
    for entries in &BOTH {
        for (i, row) in expected.iter().enumerate() {
            for (j, &answer) in row.iter().enumerate() {
                let found = (entries.compare)(&family, 4, i + 1, &family, 4, j + 1, 4);
                assert_eq!(found, (0, [answer]), "{}: {} {}", entries.title, i + 1, j + 1);
            }
        }
    }
}

/// What both answer to the square beside itself where its bytes, its size or its place are others: in the first family, in the second and in
/// both alike.
fn refused(change: impl Fn(&mut Vec<u8>, &mut usize, &mut usize), plots: usize) -> u32 {
    let good = (family_buffer(&square()), 4, 2);
    let mut other = good.clone();
    change(&mut other.0, &mut other.1, &mut other.2);
    let mut found = Vec::new();
    for entries in &BOTH {
        for [(f, a, i), (g, b, j)] in [[&other, &good], [&good, &other], [&other, &other]] {
            let (refusal, [answer]) = (entries.compare)(f, *a, *i, g, *b, *j, plots);
            assert_eq!(refusal == 0, answer != 0, "{}", entries.title);
            found.push(refusal);
        }
    }
    assert!(found.iter().all(|&refusal| refusal == found[0]), "{found:?}");
    found[0]
}

/// The refusal where a family has this size and this place is asked about.
fn asked(size: usize, place: usize) -> u32 {
    refused(|_, own_size, own_place| (*own_size, *own_place) = (size, place), 4)
}

#[test]
fn question_6_judges_places_and_15_sizes() {
    assert_eq!([asked(4, 0), asked(4, 1), asked(4, 4), asked(4, 5)], [6, 0, 0, 6]);
    assert_eq!([asked(0, 0), asked(0, 1), asked(0, usize::MAX)], [6, 6, 6]);
    // A fifth member would stand where nothing is written.
    assert_eq!([asked(5, 1), asked(5, 5), asked(5, 6)], [15, 15, 6]);
    assert_eq!([asked(33, 1), asked(33, 33), asked(33, 34)], [15, 15, 6]);
    assert_eq!([asked(usize::MAX, 1), asked(usize::MAX, usize::MAX), asked(usize::MAX - 1, usize::MAX)], [15, 15, 6]);
    // Places and sizes that are good ones in fewer bits.
    for more in [1 << 8, 1 << 16, 1 << 32] {
        assert_eq!([asked(4, more), asked(4, more + 2), asked(more + 4, 2), asked(more + 4, more + 2)], [6, 6, 15, 15]);
    }
}

#[test]
fn question_6_judges_plots_and_lengths() {
    let with_length = |length: usize| refused(|family, _, _| family.resize(length, 7), 4);
    assert_eq!([with_length(0), with_length(FAMILY - 1), with_length(FAMILY), with_length(FAMILY + 1)], [6, 6, 0, 0]);
    let with_plots = |plots: usize| refused(|_, _, _| (), plots);
    assert_eq!([0, 241, 260, 65_540, (1 << 32) + 4, usize::MAX].map(with_plots), [6; 6]);
    // Fewer plots: on three all four still differ, on two the first half and U are alike, and so on one.
    assert_eq!([4, 3, 2, 1].map(with_plots), [0, 0, 15, 15]);
    // 6 before 15: a place too far in a family that is none.
    assert_eq!(refused(|family, _, place| (family[0], *place) = (9, 5), 4), 6);
    assert_eq!(refused(|family, _, _| { family[0] = 9; family.truncate(FAMILY - 1) }, 4), 6);
}

#[test]
fn question_15_judges_all_members_of_both_families() {
    // Each byte of each member; the place asked about is the second.
    for (i, u) in (0..4).flat_map(|i| (0..4).map(move |u| (i, u))) {
        for class in [0, 5, 255] {
            assert_eq!(refused(|family, _, _| family[PLOTS * i + u] = class, 4), 15, "{i} {u} {class}");
        }
    }
    // Two members exchanged, and one twice.
    let copied = |from: usize, to: usize| refused(|family, _, _| family.copy_within(PLOTS * from..PLOTS * from + 4, PLOTS * to), 4);
    assert_eq!([copied(3, 2), copied(2, 1), copied(1, 2), copied(0, 1)], [15; 4]);
    let exchanged = |family: &mut Vec<u8>, _: &mut usize, _: &mut usize| {
        (0..4).for_each(|u| family.swap(PLOTS + u, 2 * PLOTS + u));
    };
    assert_eq!(refused(exchanged, 4), 15);
    // Members past the size and bytes past the plots may be anything.
    assert_eq!(refused(|family, size, _| { *size = 2; family[2 * PLOTS] = 9 }, 4), 0);
    assert_eq!(refused(|family, _, _| (0..MEMBERS).for_each(|i| family[PLOTS * i + 4] ^= 255), 4), 0);
}

#[test]
fn the_most_members_on_the_most_plots() {
    // Each member joins one plot fewer than the one before it, from the first 32 plots on; all the others are single. The last one is E.
    let member = |end: u8| (0..240).map(|u: u8| 1 + u.saturating_sub(end)).collect::<Partition>();
    let family = family_buffer(&(0..32).map(|i| member(31 - i)).collect::<Vec<Partition>>());
    for entries in &BOTH {
        let answer = |i: usize, j: usize| (entries.compare)(&family, 32, i, &family, 32, j, 240);
        assert_eq!([answer(32, 32), answer(32, 1), answer(1, 32), answer(7, 8)], [(0, [1]), (0, [2]), (0, [3]), (0, [3])]);
        assert_eq!([answer(33, 1).0, answer(1, 33).0], [6, 6], "{}", entries.title);
    }
}

/// "in the relation a bit is set exactly when it is finer", on the families of random calls.
#[test]
fn the_relation_has_a_bit_exactly_where_the_answer_is_finer() {
    let (entry, mut seen) = (titled("relation").expect("an entry"), 0);
    for call in (0..600).map(|index| entry.call(19, index)) {
        let (family, plots, size) = (&call.families[0], call.plots, call.sizes[0]);
        let (refusal, relation) = (FAST.relation)(family, plots, size);
        if refusal != 0 {
            continue;
        }
        for (i, j) in (0..size).flat_map(|i| (0..size).map(move |j| (i, j))) {
            let finer = (FAST.compare)(family, size, i + 1, family, size, j + 1, plots) == (0, [2]);
            assert_eq!(relation[1 + i] >> j & 1 == 1, finer, "{} {}", i + 1, j + 1);
            seen += usize::from(finer);
        }
    }
    assert!(seen > 1000, "{seen}");
}

/// The first pair of members, in the order of the places, that is not orthogonal; of one family the second place is behind the first.
fn first_failing(entries: &Entries, [f, g]: [&[u8]; 2], [a, b]: [u64; 2], one: bool, plots: usize) -> (u64, u64) {
    let pairs = (1..=a).flat_map(|i| (if one { i + 1 } else { 1 }..=b).map(move |j| (i, j)));
    let fails = |&(i, j): &(u64, u64)| {
        let found = (entries.compare)(f, a as usize, i as usize, g, b as usize, j as usize, plots);
        assert_eq!(found.0, 0, "{}", entries.title);
        found.1 == [5]
    };
    pairs.into_iter().find(fails).unwrap_or((0, 0))
}

/// "In the design a pair fails exactly when the answer is not orthogonal": one full design. Answers its refusal.
fn failing_pairs(entries: &Entries, call: &Call) -> u32 {
    let (mut plot, mut treatment, [p, t]) = (vec![0; FAMILY], vec![0; FAMILY], call.columns);
    let found = (entries.full_design)(&call.levels, call.plots, p, t, call.k, &mut plot, &mut treatment);
    let (refusal, [first, second, a, b]) = found;
    let among = |families, sizes, one| first_failing(entries, families, sizes, one, call.plots);
    let places = (first, second);
    if refusal == 10 {
        assert_eq!(among([&plot, &plot], [a, a], true), places, "{}", entries.title);
    } else if refusal == 0 || refusal > 10 {
        assert_eq!(among([&plot, &plot], [a, a], true), (0, 0), "{}", entries.title);
    }
    match refusal {
        12 => assert_eq!(among([&treatment, &treatment], [b, b], true), places, "{}", entries.title),
        13 => assert_eq!(among([&plot, &treatment], [a, b], false), places, "{}", entries.title),
        14 => assert_eq!(among([&plot, &treatment], [a, b], false), (0, 0), "{}", entries.title),
        _ => (),
    }
    refusal
}

#[test]
fn a_pair_of_a_design_fails_exactly_where_the_answer_is_not_orthogonal() {
    let (entry, mut seen) = (titled("full_design").expect("an entry"), BTreeMap::new());
    for index in 0..3000 {
        let call = entry.call(19, index);
        let refusal = failing_pairs(&FAST, &call);
        if call.plots <= 32 {
            assert_eq!(failing_pairs(&LITERAL, &call), refusal);
        }
        *seen.entry(refusal).or_insert(0) += 1;
    }
    assert!([0, 10, 12, 13, 14].iter().all(|refusal| seen.contains_key(refusal)), "{seen:?}");
}

/// What the rules, or a mistake with them, say to a call that passes 6 and 15.
fn by_rules(call: &Call, mistake: Mistake) -> i128 {
    let row = |which: usize| &call.families[which][PLOTS * (call.places[which] - 1)..][..call.plots];
    standing(row(0), row(1), mistake) as i128
}

/// In random calls both say what the rules say, each of the five often, and each mistake shows.
#[test]
fn random_calls_have_each_answer_and_show_every_mistake() {
    let entry = titled("compare").expect("an entry");
    let (mut seen, mut shown) = (BTreeMap::new(), BTreeMap::new());
    for call in (0..2000).map(|index| entry.call(19, index)) {
        let found = (entry.run)(&call, &FAST);
        assert_eq!(found.difference(&(entry.run)(&call, &LITERAL)), None);
        if found.refusal != 0 {
            continue;
        }
        assert_eq!(found.answer, [by_rules(&call, Mistake::None)]);
        *seen.entry(found.answer[0]).or_insert(0) += 1;
        for (mistake, title) in &MISTAKES[1..] {
            *shown.entry(*title).or_insert(0) += usize::from(found.answer != [by_rules(&call, *mistake)]);
        }
    }
    println!("answers {seen:?}, mistakes shown {shown:#?}");
    assert!(seen.len() == 5 && seen.values().all(|&times| times > 100), "{seen:?}");
    assert!(shown.len() == MISTAKES.len() - 1 && shown.values().all(|&times| times > 10), "{shown:#?}");
}

/// Each answer and each mistake shows in a kept case of the comparison too.
#[test]
fn kept_cases_have_each_answer_and_show_every_mistake() {
    let folder = concat!(env!("CARGO_MANIFEST_DIR"), "/../compare/cases");
    let files = std::fs::read_dir(folder).expect("a folder of cases").map(|file| file.expect("a file").path());
    let cases = files.map(|path| case::read(&std::fs::read_to_string(path).expect("a text")).expect("a case"));
    let kept: Vec<_> = cases.filter(|case| case.call.entry.title == "compare" && case.refusal == Some(0)).collect();
    assert!((1..=5).all(|answer| kept.iter().any(|case| case.answer == [answer])));
    for (mistake, title) in MISTAKES {
        let shows = kept.iter().any(|case| case.answer != [by_rules(&case.call, mistake)]);
        assert_eq!(shows, mistake != Mistake::None, "{title}");
    }
}
