//! The sample sheet and the examples of Großmann's paper: whole tables as the program prints them.

mod common;

use common::*;
use reference::Level;

fn prints(text: &[u8], expected: &[&str]) {
    for entries in &BOTH {
        assert_eq!(output(entries, text), lines(expected), "{}", entries.title);
    }
}

fn column(plots: usize, level: impl Fn(usize) -> usize) -> Vec<Level> {
    (0..plots).map(|u| level(u) as Level + 1).collect()
}

#[test]
fn the_sample_sheet_with_any_labels() {
    let table = ["stratum source df", "U U 1", "U =total 1", "Hut =total 1", "E Gain 1", "E =residual 1", "E =total 2", "=all =total 4"];
    prints(b"p:Hut\tt:Gain\n1\t1\n1\t2\n2\t1\n2\t2\n", &table);
    let pairs = [(1, 65_537), (65_536, 131_072), (65_535, 4_294_967_295), (4_294_901_760, 4_294_967_295), (1, 3_163_095_041)];
    for (a, b) in pairs {
        for (c, d) in pairs {
            prints(&sheet(&[("Hut", vec![a, a, b, b])], &[("Gain", vec![c, d, c, d])]), &table);
        }
    }
}

#[test]
fn a_buffer_that_is_too_short_is_refused_by_6() {
    for entries in &BOTH {
        let mut out = pattern(32_767);
        assert_eq!((entries.skeleton)(b"p:Hut\n1\n", &mut out), (6, 0));
        assert_eq!(out, pattern(32_767));
        assert_eq!((entries.skeleton)(b"", &mut []), (6, 0));
    }
}

/// Example 1, Table 2: six blocks of five apple trees, three sprays on whole blocks, five prunings within each.
#[test]
fn apple_trees_in_blocks() {
    let block = column(30, |u| u / 5);
    let spray = column(30, |u| [2, 0, 1, 1, 0, 2][u / 5]);
    let pruning = column(30, |u| (u + 3 * (u / 5)) % 5);
    let expected = [
        "stratum source df",
        "U U 1",
        "U =total 1",
        "Block Spray 2",
        "Block =residual 3",
        "Block =total 5",
        "E Pruning 4",
        "E I(Spray,Pruning) 8",
        "E =residual 12",
        "E =total 24",
        "=all =total 30",
    ];
    prints(&sheet(&[("Block", block)], &[("Spray", spray), ("Pruning", pruning)]), &expected);
}

/// Example 2, Figure 4: twenty subjects with two factors between them and one within.
#[test]
fn factors_between_and_within_subjects() {
    let subject = column(40, |u| u / 2);
    let age = column(40, |u| u / 20);
    let gender = column(40, |u| u / 10 % 2);
    let attraction = column(40, |u| u % 2);
    let expected = [
        "stratum source df",
        "U U 1",
        "U =total 1",
        "Subject Age 1",
        "Subject Gender 1",
        "Subject I(Age,Gender) 1",
        "Subject =residual 16",
        "Subject =total 19",
        "E Attraction 1",
        "E I(Age,Attraction) 1",
        "E I(Gender,Attraction) 1",
        "E I(Age,Gender,Attraction) 1",
        "E =residual 16",
        "E =total 20",
        "=all =total 40",
    ];
    let treatments = [("Age", age), ("Gender", gender), ("Attraction", attraction)];
    prints(&sheet(&[("Subject", subject)], &treatments), &expected);
}

/// Example 3, Figure 5: a split-plot experiment on five benches of four sections of two plants.
#[test]
fn a_split_plot_experiment() {
    let bench = column(40, |u| u / 8);
    let section = column(40, |u| u / 2);
    let dose = column(40, |u| (u / 2 + 3 * (u / 8)) % 4);
    let variety = column(40, |u| (u + u / 2 % 3) % 2);
    let expected = [
        "stratum source df",
        "U U 1",
        "U =total 1",
        "Bench =total 4",
        "Section Dose 3",
        "Section =residual 12",
        "Section =total 15",
        "E Variety 1",
        "E I(Dose,Variety) 3",
        "E =residual 16",
        "E =total 20",
        "=all =total 40",
    ];
    prints(&sheet(&[("Bench", bench), ("Section", section)], &[("Dose", dose), ("Variety", variety)]), &expected);
}

/// Plots by row, column and sub-column: u = 20 × row + 4 × column + sub-column.
fn orchard() -> [(&'static str, Vec<Level>); 4] {
    let cell = column(100, |u| u / 4);
    let sub_column = column(100, |u| u % 20);
    [("Row", column(100, |u| u / 20)), ("Column", column(100, |u| u / 4 % 5)), ("Cell", cell), ("Subcolumn", sub_column)]
}

fn rootstock() -> Vec<Level> {
    column(100, |u| (u / 20 + u / 4 % 5) % 5)
}

/// The soil treatment of a sub-column: another order in each column.
fn soil(u: usize) -> usize {
    let orders = [[0, 1, 2, 3], [2, 0, 3, 1], [3, 2, 1, 0], [1, 3, 0, 2], [0, 3, 1, 2]];
    orders[u / 4 % 5][u % 4]
}

/// Example 4, Figure 7: a Latin square with randomized complete blocks in sub-columns.
#[test]
fn a_latin_square_with_sub_columns() {
    let expected = [
        "stratum source df",
        "U U 1",
        "U =total 1",
        "Row =total 4",
        "Column =total 4",
        "Subcolumn Soil 3",
        "Subcolumn =residual 12",
        "Subcolumn =total 15",
        "Cell Rootstock 4",
        "Cell =residual 12",
        "Cell =total 16",
        "E I(Rootstock,Soil) 12",
        "E =residual 48",
        "E =total 60",
        "=all =total 100",
    ];
    prints(&sheet(&orchard(), &[("Rootstock", rootstock()), ("Soil", column(100, soil))]), &expected);
}

/// Example 4 extended, Figure 8: the soil treatments are the combinations of two factors.
#[test]
fn a_latin_square_with_two_soil_factors() {
    let expected = [
        "stratum source df",
        "U U 1",
        "U =total 1",
        "Row =total 4",
        "Column =total 4",
        "Subcolumn Fumigation 1",
        "Subcolumn Composting 1",
        "Subcolumn I(Fumigation,Composting) 1",
        "Subcolumn =residual 12",
        "Subcolumn =total 15",
        "Cell Rootstock 4",
        "Cell =residual 12",
        "Cell =total 16",
        "E I(Rootstock,Fumigation) 4",
        "E I(Rootstock,Composting) 4",
        "E I(Rootstock,Fumigation,Composting) 4",
        "E =residual 48",
        "E =total 60",
        "=all =total 100",
    ];
    let (fumigation, composting) = (column(100, |u| soil(u) / 2), column(100, |u| soil(u) % 2));
    let treatments = [("Rootstock", rootstock()), ("Fumigation", fumigation), ("Composting", composting)];
    prints(&sheet(&orchard(), &treatments), &expected);
}

#[test]
fn refused_designs_are_printed_with_names() {
    let expected = [
        (sheet(&[("Aa", vec![1, 1, 2])], &[]), "refused 9 Aa -"),
        (sheet(&[("Aa", vec![1, 1, 2, 2, 3, 3]), ("Bb", vec![1, 2, 1, 3, 2, 3])], &[]), "refused 10 Aa Bb"),
        (sheet(&[("Aa", vec![1, 1, 1, 2, 2, 2]), ("Bb", vec![1, 1, 2, 1, 2, 2])], &[]), "refused 9 I(Aa,Bb) -"),
        (sheet(&[], &[("Aa", vec![1, 1, 1, 2, 2, 2]), ("Bb", vec![1, 1, 2, 1, 2, 2])]), "refused 12 Aa Bb"),
        (sheet(&[("Aa", vec![1, 1, 1, 2, 2, 2])], &[("Bb", vec![1, 1, 2, 1, 2, 2])]), "refused 13 Aa Bb"),
    ];
    for (text, line) in &expected {
        prints(text, &[line]);
    }
    let bits = |count: usize| -> Vec<(&'static str, Vec<Level>)> {
        let names = ["Aa", "Bb", "Cc", "Dd", "Ee", "Ff"];
        (0..count).map(|c| (names[c], column(64, |u| u >> c & 1))).collect()
    };
    prints(&sheet(&bits(6), &[]), &["refused 8 - -"]);
    prints(&sheet(&[], &bits(6)), &["refused 11 - -"]);
    let sums = column(32, |u| (u ^ u >> 1) & 15);
    let four = column(32, |u| u & 15);
    let five: Vec<(&str, Vec<Level>)> = bits(5).into_iter().map(|(name, levels)| (name, levels[..32].to_vec())).collect();
    prints(&sheet(&five, &[("Gg", sums), ("Hh", four)]), &["refused 14 - -"]);
}

/// A pair that is not orthogonal, of which one is no column: six points of four plots each, paired in one way by a factor that is no column
/// and in another way by Cc. Aa and Bb cut each of those pairs in two, each in its own way, so their supremum is that factor; Pp are the
/// points.
#[test]
fn refused_members_are_named_as_suprema() {
    let (aa, bb) = (("Aa", column(24, |u| u / 8 * 2 + u / 2 % 2)), ("Bb", column(24, |u| u / 8 * 2 + u % 2)));
    let (cc, pp) = (("Cc", column(24, |u| [0, 1, 0, 2, 1, 2][u / 4])), ("Pp", column(24, |u| u / 4)));
    let both = [aa.clone(), bb.clone()];
    let all = [aa, bb, cc.clone()];
    prints(&sheet(&all, &[]), &["refused 10 S(Aa,Bb) Cc"]);
    prints(&sheet(&[], &all), &["refused 12 S(Aa,Bb) Cc"]);
    prints(&sheet(std::slice::from_ref(&pp), &all), &["refused 12 S(Pp,Aa,Bb) Cc"]);
    prints(&sheet(std::slice::from_ref(&cc), &both), &["refused 13 Cc S(Aa,Bb)"]);
    prints(&sheet(&[cc, pp], &both), &["refused 13 Cc S(Pp,Aa,Bb)"]);
    // The supremum has classes of four plots and of two.
    prints(&sheet(&[("Aa", vec![1, 1, 2, 2, 3, 3]), ("Bb", vec![1, 2, 1, 2, 3, 3])], &[]), &["refused 9 S(Aa,Bb) -"]);
}

#[test]
fn suprema_are_printed_as_strata_and_sources() {
    // Two ways to pair four plots, twice: as plot columns, as treatment columns, and one of each.
    let (aa, bb) = (("Aa", vec![1, 1, 2, 2, 3, 3, 4, 4]), ("Bb", vec![1, 2, 1, 2, 3, 4, 3, 4]));
    let plots = [
        "stratum source df", "U U 1", "U =total 1", "S(Aa,Bb) =total 1", "Aa =total 2", "Bb =total 2", "E =total 2", "=all =total 8",
    ];
    prints(&sheet(&[aa.clone(), bb.clone()], &[]), &plots);
    let treatments = [
        "stratum source df", "U U 1", "U =total 1", "E S(Aa,Bb) 1", "E Aa 2", "E Bb 2", "E E 2", "E =total 7", "=all =total 8",
    ];
    prints(&sheet(&[], &[aa.clone(), bb.clone()]), &treatments);
    let one_of_each = [
        "stratum source df", "U U 1", "U =total 1", "Aa S(Aa,Bb) 1", "Aa =residual 2", "Aa =total 3", "E Bb 2", "E =residual 2", "E =total 4",
        "=all =total 8",
    ];
    prints(&sheet(&[aa], &[bb]), &one_of_each);
    // The final family has the plot column, and a treatment for each plot.
    let nested = [
        "stratum source df", "U U 1", "U =total 1", "Hut S(Hut) 1", "Hut =total 1", "E E 2", "E =total 2", "=all =total 4",
    ];
    prints(&sheet(&[("Hut", vec![1, 1, 2, 2])], &[("Gain", vec![1, 2, 3, 4])]), &nested);
}

#[test]
fn a_sheet_without_treatments_has_u_as_its_only_source() {
    let table = ["stratum source df", "U U 1", "U =total 1", "Aa =total 1", "E =total 2", "=all =total 4"];
    prints(b"p:Aa\n1\n1\n2\n2\n", &table);
    prints(b"p:Aa\n5\n", &["stratum source df", "U U 1", "U =total 1", "=all =total 1"]);
    let all_taken = ["stratum source df", "U U 1", "U =total 1", "E E 1", "E =total 1", "=all =total 2"];
    prints(b"t:Aa\n1\n2\n", &all_taken);
}

#[test]
fn members_with_0_degrees_of_freedom_are_printed() {
    let square = sheet(&[("Aa", vec![1, 1, 2, 2]), ("Bb", vec![1, 2, 1, 2]), ("Cc", vec![1, 2, 2, 1])], &[]);
    let table = [
        "stratum source df", "U U 1", "U =total 1", "Aa =total 1", "Bb =total 1", "Cc =total 1", "E =total 0", "=all =total 4",
    ];
    prints(&square, &table);
}
