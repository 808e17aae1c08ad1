//! How two factors stand: first family, its size, a place in it, second family, its size, a place in it, plots; one of five numbers.

use super::{Entry, Told};
use crate::call::{Call, Outcome};
use crate::family::damage;
use crate::memory::family_buffer;
use crate::pairs;
use crate::random::Random;
use reference::{Entries, MEMBERS, PLOTS};

pub static ENTRY: Entry = Entry {
    title: "compare",
    refusals: &[6, 15],
    told: Some(Told { title: "as answered", numbers: &[1, 2, 3, 4, 5], of: |outcome| outcome.answer[0] as u32 }),
    make,
    run,
    plots: |_| 0,
    steps: pairs::SMALLER,
    calls: 8000,
};

fn make(random: &mut Random) -> Call {
    let pair = pairs::pair(random);
    let (mut sizes, mut places, plots) = (pair.families.each_ref().map(Vec::len), pair.places, pair.plots);
    let mut families = pair.families.each_ref().map(|members| family_buffer(members));
    if random.once_in(3) {
        families.iter_mut().for_each(|family| go_on(random, plots, family));
    }
    if random.once_in(4) {
        let which = random.below(2);
        if random.once_in(3) {
            damage(random, plots, sizes[which], &mut families[which]);
        } else {
            change(random, plots, sizes[which], &mut families[which]);
        }
    }
    for which in [0, 1] {
        let length = random.length(families[which].len());
        families[which].resize(length, 1);
        (sizes[which], places[which]) = limits(random, sizes[which], places[which]);
    }
    let plots = if random.once_in(30) { 1 + random.below(plots) } else { random.count(plots) };
    Call { plots, sizes, places, families, ..Call::new(&ENTRY) }
}

/// Past the plots each member goes on with numbers of its classes: whoever looks there finds nothing wrong with them.
fn go_on(random: &mut Random, plots: usize, family: &mut [u8]) {
    for row in family.chunks_mut(PLOTS) {
        let (used, rest) = row.split_at_mut(plots);
        rest.iter_mut().for_each(|class| *class = random.pick(used));
    }
}

/// Another number on one plot of one member.
fn change(random: &mut Random, plots: usize, size: usize, family: &mut [u8]) {
    let class = &mut family[PLOTS * random.below(size) + random.below(plots)];
    let near = [class.wrapping_add(1), class.wrapping_sub(1), *class ^ 1 << random.below(8), 0, 1, 2, 240, 241, 255];
    *class = random.pick(&near);
}

/// A family's size and a place in it; now and then at or past a limit, or such that they are good ones when they are cut to fewer bits.
fn limits(random: &mut Random, size: usize, place: usize) -> (usize, usize) {
    const HUGE: [usize; 3] = [usize::MAX, usize::MAX / PLOTS + 1, usize::MAX / 2 + 1];
    let huge = random.pick(&HUGE);
    let wide = random.pick(&[1 << 8, 1 << 16, 1 << 32]);
    match random.below(24) {
        0 => {
            let size = random.pick(&[0, 1, MEMBERS, MEMBERS + 1, MEMBERS + 2, huge, size + wide]);
            (size, random.pick(&[0, 1, size, size, size.saturating_add(1), place, MEMBERS, MEMBERS + 1, huge, place + wide]))
        }
        1 => (size, random.pick(&[0, size, size + 1, huge, place + wide])),
        2 => (random.size(size), place),
        _ => (size, place),
    }
}

fn run(call: &Call, entries: &Entries) -> Outcome {
    let ([first, second], [a, b], [i, j]) = (&call.families, call.sizes, call.places);
    Outcome::of((entries.compare)(first, a, i, second, b, j, call.plots), Vec::new())
}

#[cfg(feature = "library")]
pub mod library {
    use crate::entries::{Fault, LIBRARY, STALE};
    use crate::memory::family_buffer;
    use crate::standing::{standing, Mistake, MISTAKES};
    use reference::{Entries, FAMILY, MEMBERS, PLOTS};

    extern "C" {
        fn rachdoum_compare(
            first_family: *const u8, first_family_len: usize, first_size: usize, first_place: usize, second_family: *const u8,
            second_family_len: usize, second_size: usize, second_place: usize, plots: usize, answer: *mut u64,
        ) -> u32;
    }

    type Found = (u32, [u64; 1]);

    pub fn compare(
        first: &[u8], first_size: usize, first_place: usize, second: &[u8], second_size: usize, second_place: usize, plots: usize,
    ) -> Found {
        let mut answer = [STALE; 1];
        // Each pointer has its own length, and the answer has the header's.
        let number = unsafe {
            rachdoum_compare(
                first.as_ptr(), first.len(), first_size, first_place, second.as_ptr(), second.len(), second_size, second_place, plots,
                answer.as_mut_ptr(),
            )
        };
        (number, answer)
    }

    pub const FAULTS: &[Fault] = &[
        mistake::<1>(), mistake::<2>(), mistake::<3>(), mistake::<4>(), mistake::<5>(), mistake::<6>(), mistake::<7>(), fault::<0>(),
        fault::<1>(), fault::<2>(), fault::<3>(), fault::<4>(), fault::<5>(), fault::<6>(), fault::<7>(), fault::<8>(), fault::<9>(),
        fault::<10>(), fault::<11>(), fault::<12>(), fault::<13>(), fault::<14>(),
    ];

    /// A family and the place that is asked about.
    #[derive(Clone, Copy)]
    struct Asked<'a> {
        family: &'a [u8],
        size: usize,
        place: usize,
    }

    impl Asked<'_> {
        /// Whether question 15 passes the family; what 6 asks has been passed.
        fn is_family(&self, plots: usize) -> bool {
            (LIBRARY.degrees)(self.family, plots, self.size).0 == 0
        }

        /// The bytes of the member at the place, so many of them, if the buffer has them.
        fn row(&self, length: usize) -> Option<&[u8]> {
            let row = PLOTS * self.place.checked_sub(1).filter(|&row| row <= MEMBERS)?;
            self.family.get(row..row + length)
        }
    }

    /// How a fault answers, of both and the number of plots.
    type Wrong = fn(Asked, Asked, usize) -> Found;

    /// What the library answers.
    fn right(first: Asked, second: Asked, plots: usize) -> Found {
        (LIBRARY.compare)(first.family, first.size, first.place, second.family, second.size, second.place, plots)
    }

    /// What a mistake makes of the members at the places; the refusal where there is none.
    fn stand(first: Asked, second: Asked, plots: usize, mistake: Mistake) -> Option<Found> {
        Some((0, [standing(first.row(plots)?, second.row(plots)?, mistake) as u64]))
    }

    /// One of the mistakes with which two factors can be compared.
    const fn mistake<const PLACE: usize>() -> Fault {
        Fault { title: MISTAKES[PLACE].1, entries: Entries { compare: mistaken::<PLACE>, ..LIBRARY } }
    }

    fn mistaken<const PLACE: usize>(f: &[u8], a: usize, i: usize, g: &[u8], b: usize, j: usize, plots: usize) -> Found {
        let [first, second] = [Asked { family: f, size: a, place: i }, Asked { family: g, size: b, place: j }];
        let found = right(first, second, plots);
        let other = (found.0 == 0).then(|| stand(first, second, plots, MISTAKES[PLACE].0));
        other.flatten().unwrap_or(found)
    }

    /// One of the faults below.
    const fn fault<const PLACE: usize>() -> Fault {
        Fault { title: WRONG[PLACE].0, entries: Entries { compare: wrong::<PLACE>, ..LIBRARY } }
    }

    fn wrong<const PLACE: usize>(f: &[u8], a: usize, i: usize, g: &[u8], b: usize, j: usize, plots: usize) -> Found {
        let [first, second] = [Asked { family: f, size: a, place: i }, Asked { family: g, size: b, place: j }];
        WRONG[PLACE].1(first, second, plots)
    }

    /// Faults of the questions and of what is looked at.
    const WRONG: [(&str, Wrong); 15] = [
        ("only the first family judged by 15", |first, second, plots| passed(first, second, plots, first.is_family(plots))),
        ("only the second family judged by 15", |first, second, plots| passed(first, second, plots, second.is_family(plots))),
        ("only the members at the places judged by 15", members_alone),
        ("place 33 of size 33 refused by 6", place_33),
        ("size 0 refused by 15", size_0),
        ("the answer left stale after a refusal", stale),
        ("a byte past the plots looked at", |first, second, plots| right(first, second, plots + usize::from((1..PLOTS).contains(&plots)))),
        ("240 bytes of the members compared", whole_rows),
        ("15 before 6", families_first),
        ("the second place judged by the first family's size", first_size),
        ("the places exchanged", exchanged),
        ("one byte too few is enough for the second family", one_less),
        ("places cut to 32 bits", |first, second, plots| right(cut_place(first), cut_place(second), plots)),
        ("sizes cut to 8 bits", |first, second, plots| right(cut_size(first), cut_size(second), plots)),
        ("240 plots refused", |first, second, plots| right(first, second, if plots == PLOTS { 0 } else { plots })),
    ];

    /// The answer in place of a 15 where that is passed over.
    fn passed(first: Asked, second: Asked, plots: usize, over: bool) -> Found {
        let found = right(first, second, plots);
        let other = (found.0 == 15 && over).then(|| stand(first, second, plots, Mistake::None));
        other.flatten().unwrap_or(found)
    }

    fn members_alone(first: Asked, second: Asked, plots: usize) -> Found {
        let alone = |asked: Asked| {
            let member = asked.row(plots).filter(|_| asked.size <= MEMBERS).map(<[u8]>::to_vec);
            member.is_some_and(|member| Asked { family: &family_buffer(&[member]), size: 1, place: 1 }.is_family(plots))
        };
        passed(first, second, plots, right(first, second, plots).0 == 15 && alone(first) && alone(second))
    }

    fn place_33(first: Asked, second: Asked, plots: usize) -> Found {
        let past = [first, second].iter().any(|asked| asked.size == MEMBERS + 1 && asked.place == asked.size);
        if past { (6, [0]) } else { right(first, second, plots) }
    }

    fn size_0(first: Asked, second: Asked, plots: usize) -> Found {
        let filled = |asked: Asked| if asked.size == 0 { MEMBERS + 1 } else { asked.size };
        let any = |asked: Asked| if asked.size == 0 { 1 } else { asked.place };
        let [first, second] = [first, second].map(|asked| Asked { size: filled(asked), place: any(asked), ..asked });
        right(first, second, plots)
    }

    fn stale(first: Asked, second: Asked, plots: usize) -> Found {
        match right(first, second, plots) {
            (0, answer) => (0, answer),
            (number, _) => (number, [STALE]),
        }
    }

    /// Equivalent members are called finer where bytes past the plots differ.
    fn whole_rows(first: Asked, second: Asked, plots: usize) -> Found {
        let differ = first.row(PLOTS) != second.row(PLOTS);
        match right(first, second, plots) {
            (0, [1]) if differ => (0, [2]),
            found => found,
        }
    }

    /// The families are judged before the places.
    fn families_first(first: Asked, second: Asked, plots: usize) -> Found {
        match right(Asked { place: 1, ..first }, Asked { place: 1, ..second }, plots) {
            (15, answer) => (15, answer),
            _ => right(first, second, plots),
        }
    }

    fn first_size(first: Asked, second: Asked, plots: usize) -> Found {
        if second.place > first.size { (6, [0]) } else { right(first, second, plots) }
    }

    /// Each place is looked for in the other family, where that has it.
    fn exchanged(first: Asked, second: Asked, plots: usize) -> Found {
        let found = right(first, second, plots);
        let other = right(Asked { place: second.place, ..first }, Asked { place: first.place, ..second }, plots);
        if found.0 == 0 && other.0 == 0 { other } else { found }
    }

    fn one_less(first: Asked, second: Asked, plots: usize) -> Found {
        let longer = [second.family, &[0]].concat();
        let short = second.family.len() == FAMILY - 1;
        right(first, if short { Asked { family: &longer, ..second } } else { second }, plots)
    }

    fn cut_place(asked: Asked) -> Asked {
        Asked { place: asked.place % (1 << 32), ..asked }
    }

    fn cut_size(asked: Asked) -> Asked {
        Asked { size: asked.size % (1 << 8), ..asked }
    }
}
