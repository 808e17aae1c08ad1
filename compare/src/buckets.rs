//! Labels that are hard to number for the library: it sorts labels into 512 buckets and searches a bucket label by label, so those
//! of one bucket take longest.

use reference::Level;

/// The library multiplies a label by this, and the highest bits of the product are the bucket.
const FACTOR: Level = 2_654_435_769;
/// FACTOR times this is 1 modulo 2^32.
const INVERSE: Level = 340_573_321;
/// So many labels share a bucket.
const SHARING: Level = 1 << 23;
/// Bits of half a label, and how many labels of a bucket have one lower half.
const HALF: u32 = Level::BITS / 2;
const ALIKE: Level = SHARING >> HALF;

/// The library's bucket of a label, from 0 to 511.
pub fn bucket(label: Level) -> Level {
    label.wrapping_mul(FACTOR) / SHARING
}

/// The labels that share a bucket with the given one, itself first: 2^23, spread over all labels. The first 128 have its lower half too,
/// the next 128 have another one, and so on.
pub fn sharing(label: Level) -> impl Iterator<Item = Level> {
    let product = label.wrapping_mul(FACTOR);
    // Products of one bucket that differ by a multiple of 2^16 belong to labels that do.
    let further = |i: Level| (i % ALIKE << HALF) + i / ALIKE;
    let other = move |i: Level| bucket(label) * SHARING + product.wrapping_add(further(i)) % SHARING;
    (0..SHARING).map(move |i| other(i).wrapping_mul(INVERSE))
}

/// The labels that share a bucket and the upper half with the given one: about 128.
pub fn sharing_near(label: Level) -> impl Iterator<Item = Level> {
    let near = (0..1 << HALF).map(move |lower| (label >> HALF << HALF) + lower);
    near.filter(move |&other| bucket(other) == bucket(label))
}
