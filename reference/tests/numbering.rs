//! Numbering alone: a walk over one column that may stop anywhere.

mod common;

use common::{partitions, pattern, BOTH};
use compare::buckets::{bucket, sharing, sharing_near};
use reference::{Level, PLOTS};

/// Both number a column up to a stop: exactly these numbers are written, and their classes are counted.
fn numbered(column: &[Level], stop: usize, expected: &[u8]) {
    let before = pattern(PLOTS);
    let whole = [expected, &before[expected.len()..]].concat();
    let classes = expected.iter().copied().max().unwrap_or(0);
    for entries in &BOTH {
        let mut numbers: [u8; PLOTS] = before.clone().try_into().expect("a byte for each plot");
        let answer = (entries.number)(column, stop, &mut numbers);
        assert_eq!(answer, (0, [u64::from(classes)]), "{}: {column:?} up to {stop}", entries.title);
        assert_eq!(numbers[..], whole, "{}: {column:?} up to {stop}", entries.title);
    }
}

#[test]
fn every_division_of_few_plots_up_to_every_stop() {
    // Near to each other; far apart, with the lowest and the highest label; with a half in common.
    let labels: [[Level; 6]; 3] =
        [[4, 0, 2, 1, 5, 3], [Level::MAX, 0, 988, 1, 2585, 256], [1, 65_537, 65_535, 4_294_967_295, 65_536, 4_294_901_760]];
    for division in (1..=6).flat_map(partitions) {
        for labels in &labels {
            let column: Vec<Level> = division.iter().map(|&class| labels[usize::from(class) - 1]).collect();
            (0..=division.len()).for_each(|stop| numbered(&column, stop, &division[..stop]));
            numbered(&column, usize::MAX, &division);
        }
    }
}

#[test]
fn no_more_than_240_plots() {
    let all: Vec<u8> = (1..=PLOTS as u8).collect();
    for step in [1, 271, 65_536, 17_895_697] {
        let column: Vec<Level> = (0..=PLOTS as Level).map(|label| label * step).collect();
        numbered(&column, PLOTS - 1, &all[..PLOTS - 1]);
        [PLOTS, PLOTS + 1, usize::MAX].into_iter().for_each(|stop| numbered(&column, stop, &all));
    }
}

#[test]
fn labels_that_share_a_bucket_of_the_library() {
    let all: Vec<u8> = (1..=PLOTS as u8).collect();
    let there_and_back: Vec<u8> = (1..=120).chain((1..=120).rev()).collect();
    for first in [1, 65_536, 3_000_000_001, Level::MAX] {
        let labels: Vec<Level> = sharing(first).take(PLOTS).collect();
        assert_eq!(labels[0], first);
        assert!(labels.iter().all(|&label| bucket(label) == bucket(first)));
        // The first 128 have one lower half: cut to 16 bits they would be one label.
        assert!(labels[..128].iter().all(|&label| label % 65_536 == first % 65_536));
        numbered(&labels, PLOTS, &all);
        let twice: Vec<Level> = labels[..120].iter().chain(labels[..120].iter().rev()).copied().collect();
        numbered(&twice, PLOTS, &there_and_back);
        let near: Vec<Level> = sharing_near(first).take(PLOTS).collect();
        numbered(&near, PLOTS, &all[..near.len()]);
    }
}

#[test]
fn no_plots() {
    numbered(&[], 0, &[]);
    numbered(&[], 5, &[]);
    numbered(&[7, 7], 0, &[]);
}
