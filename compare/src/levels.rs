//! Different levels made at random, over the whole range.

use crate::buckets::sharing;
use crate::random::Random;
use reference::Level;

/// Bits of half a level.
const HALF: u32 = Level::BITS / 2;
/// Different halves.
const HALVES: usize = 1 << HALF;

/// So many different levels, none of them 0, at most 65,535: small ones, those at the upper end, any, those of one bucket of the library,
/// those that agree in their lower half, or those that agree in their upper half.
pub fn different(random: &mut Random, count: usize) -> Vec<Level> {
    let (most, any) = (count as Level, random.word() as Level);
    match random.below(6) {
        0 => (1..=most).collect(),
        1 => (0..most).map(|below| Level::MAX - below).collect(),
        // An odd number times different ones that are not 0: the products are different and not 0.
        2 => (1..=most).map(|number| number.wrapping_mul(any | 1)).collect(),
        3 => sharing(any).filter(|&label| label != 0).take(count).collect(),
        4 => {
            let lower = half(random);
            halves(random, count, lower).map(|upper| upper << HALF | lower).collect()
        }
        _ => {
            let upper = half(random);
            halves(random, count, upper).map(|lower| upper << HALF | lower).collect()
        }
    }
}

/// Half a level: the lowest, the next, the highest, or any.
fn half(random: &mut Random) -> Level {
    let any = random.below(HALVES);
    random.pick(&[0, 1, HALVES - 1, any]) as Level
}

/// So many halves that follow each other, from the first one on or from any. None is 0 where the other half is.
fn halves(random: &mut Random, count: usize, other: Level) -> std::ops::Range<Level> {
    let least = usize::from(other == 0);
    let first = if random.once_in(2) { least } else { least + random.below(HALVES + 1 - least - count) };
    first as Level..(first + count) as Level
}
