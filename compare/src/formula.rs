//! Formulas made at random: whole ones within the limits of names, plots, bytes and brackets and around them, damaged ones, and scribbled
//! bytes. Then the ways in which one is made smaller.

use crate::call::Call;
use crate::random::Random;
use crate::shrink::{changed_text, Step};
use reference::{COLUMNS, FORMULA, PLOTS};
use std::ops::Range;

/// A formula, a damaged one, or scribbled bytes.
pub fn text(random: &mut Random) -> Vec<u8> {
    let mut text = match random.below(12) {
        0 => return scribble(random),
        1 => many_names(random),
        2 => deep(random),
        _ => whole(random),
    };
    if random.once_in(4) {
        damage(random, &mut text);
    }
    text
}

/// A formula of few names, within the limits of names and plots or a little past them.
pub fn whole(random: &mut Random) -> Vec<u8> {
    const NAMES: [&str; 14] =
        ["Hut", "Pier", "Week", "Hu", "HUT", "hut", "Hutt", "Aa", "A1", "Zz9", "B2B", "Longestname1", "Longestname2", "p0"];
    let mut names = NAMES;
    random.shuffle(&mut names);
    let counts = counts(random);
    let items: Vec<String> = names.iter().zip(counts).map(|(name, count)| format!("{name}={count}")).collect();
    grown(random, &items).into_bytes()
}

/// The counts of a formula: 240 plots divided, powers of two whose product may be 0 in few bits, small ones, or any.
fn counts(random: &mut Random) -> Vec<usize> {
    let names = random.pick(&[1, 2, 2, 3, 3, 4, 4, 5, 5, 6, 6, COLUMNS + 1, COLUMNS + 2]);
    match random.below(10) {
        0 => divided(random, names),
        1 => (0..names).map(|_| random.pick(&[16, 64, 128, 128])).collect(),
        2 => (0..names).map(|_| random.pick(&[2, 3, 15, 16, 17, 64, 120, 121, 128, 239, PLOTS])).collect(),
        3 => (0..names).map(|_| 2 + random.below(PLOTS - 1)).collect(),
        _ => {
            let most = random.pick(&[2, 2, 3, 4, 6]);
            (0..names).map(|_| 2 + random.below(most - 1)).collect()
        }
    }
}

/// So many counts at most, in any order, whose product is 240 plots, or one count away from that.
fn divided(random: &mut Random, names: usize) -> Vec<usize> {
    let (mut counts, mut rest) = (Vec::new(), PLOTS);
    while counts.len() + 1 < names {
        let fitting: Vec<usize> = (2..=rest / 2).filter(|count| rest % count == 0).collect();
        if fitting.is_empty() {
            break;
        }
        counts.push(random.pick(&fitting));
        rest /= counts[counts.len() - 1];
    }
    counts.push(if random.once_in(4) { (rest + 1).min(PLOTS) } else { rest });
    random.shuffle(&mut counts);
    counts
}

/// The items joined by one operator, some of them gathered in brackets.
fn grown(random: &mut Random, items: &[String]) -> String {
    let operator = random.pick(&["/", "*"]);
    let mut parts: Vec<String> = Vec::new();
    let mut rest = items;
    while !rest.is_empty() {
        let most = if parts.is_empty() { rest.len() - usize::from(items.len() > 1) } else { rest.len() };
        let (taken, after) = rest.split_at(if random.once_in(2) { 1 } else { 1 + random.below(most) });
        let brackets = taken.len() > 1 || random.once_in(12);
        let inside = if taken.len() > 1 { grown(random, taken) } else { taken[0].clone() };
        parts.push(if brackets { format!("({inside})") } else { inside });
        rest = after;
    }
    let joined = parts.join(operator);
    if random.once_in(12) { format!("({joined})") } else { joined }
}

/// A short formula in brackets, so many that the text has as many bytes as it may have, or a few less or more, or any number of them.
fn deep(random: &mut Random) -> Vec<u8> {
    let name = random.pick(&["Aa", "Abc"]);
    let inside = random.pick(&["=2", "=10", "=2/Bb=2", "=2*(Bb=3)", "=2)/(Bb=2", "=3)*((Bb=2)", "="]);
    let inside = format!("{name}{inside}");
    let most = (FORMULA + 2 - inside.len()) / 2;
    let pairs = if random.once_in(2) { most - random.below(2) } else { random.below(most) };
    let closing = if random.once_in(6) { (pairs + random.below(3)).saturating_sub(1) } else { pairs };
    format!("{}{inside}{}", "(".repeat(pairs), ")".repeat(closing)).into_bytes()
}

/// More names than there may be, joined by one operator, up to as many bytes as there may be, or a few less or more.
fn many_names(random: &mut Random) -> Vec<u8> {
    let wanted = if random.once_in(3) { 40 + random.below(FORMULA) } else { FORMULA - 2 + random.below(4) };
    let operator = random.pick(b"/*");
    let (counts, longest) = (random.pick(&[&[2usize, 3][..], &[PLOTS], &[PLOTS], &[16, 64, 128, PLOTS]]), random.pick(&[7, 7, 15]));
    let mut text = Vec::new();
    for number in 0.. {
        let left = wanted.saturating_sub(text.len());
        if left < "/Aa=2".len() {
            break;
        }
        // What is left after this item is enough for another one, or nothing.
        let length = if left <= 15 { left } else { (5 + random.below(longest - 4)).min(left - 5) };
        let count = if length < 7 { 2 } else { random.pick(counts) };
        text.push(operator);
        text.extend(numbered_name(number, length - 2 - count.to_string().len()));
        text.extend(format!("={count}").bytes());
    }
    text.remove(0);
    text
}

/// A name of so many bytes, another one for each number.
fn numbered_name(number: usize, length: usize) -> Vec<u8> {
    let mut name = vec![b'A' + (number / 26) as u8, b'a' + (number % 26) as u8];
    name.resize(length.clamp(2, 12), b'9');
    name
}

/// Counts out of form, or at the ends of their range: too long for a number of any size, with zeros before them, with signs.
const COUNTS: [&str; 24] = [
    "", "0", "1", "00", "02", "002", "010", "0240", "240", "241", "242", "256", "258", "512", "999", "2400", "65538", "4294967298",
    "18446744073709551618", "340282366920938463463374607431768211458", "+2", "-2", " 2", "2a",
];
/// Names out of form, or nearly so.
const NAMES: [&str; 12] =
    ["", "A", "Ab", "Abcdefghijkl", "Abcdefghijklm", "1a", "12", "A_", "a\u{e9}", "p:Aa", "A a", "Hut"];

/// Damages a text: a byte, a count, a name, an operator or a bracket.
fn damage(random: &mut Random, text: &mut Vec<u8>) {
    let at = random.below(text.len());
    match random.below(14) {
        0 => text[at] = random.word() as u8,
        1 => text[at] = random.pick(b"()/*=02Aa \t\n\r\0-"),
        2 => { text.remove(at); }
        3 => text.insert(at, random.pick(b"()/*=019Aa \t\n\r\0-\xff")),
        4 => text.truncate(at),
        5 => text.extend_from_slice(random.pick(&[&b" "[..], b"\n", b"/", b"*", b")", b"/Bb", b"*Bb=", b"()", b"\0", b"(Bb=2)"])),
        6 | 7 => replace(random, text, count_at, &COUNTS),
        8 => replace(random, text, name_at, &NAMES),
        9 => same_name(random, text),
        10 => { let copy = text.clone(); text.push(random.pick(b"/*")); text.extend(copy); }
        11 => { let whole = [b"(", &text[..], b")"].concat(); *text = whole; }
        _ => other_operator(random, text),
    }
}

/// The places of this byte.
fn places(text: &[u8], byte: u8) -> Vec<usize> {
    (0..text.len()).filter(|&at| text[at] == byte).collect()
}

/// The name before an equals sign.
fn name_at(text: &[u8], equals: usize) -> Range<usize> {
    let before = text[..equals].iter().rposition(|byte| !byte.is_ascii_alphanumeric());
    before.map_or(0, |at| at + 1)..equals
}

/// The count after an equals sign.
fn count_at(text: &[u8], equals: usize) -> Range<usize> {
    let length = text[equals + 1..].iter().position(|byte| !byte.is_ascii_digit());
    equals + 1..length.map_or(text.len(), |length| equals + 1 + length)
}

/// Puts another name or count in the place of one.
fn replace(random: &mut Random, text: &mut Vec<u8>, part: fn(&[u8], usize) -> Range<usize>, others: &[&str]) {
    let places = places(text, b'=');
    if !places.is_empty() {
        let range = part(text, random.pick(&places));
        text.splice(range, random.pick(others).bytes());
    }
}

/// Gives one name to two items, or nearly so: with a letter in the other case.
fn same_name(random: &mut Random, text: &mut Vec<u8>) {
    let places = places(text, b'=');
    if places.len() < 2 {
        return;
    }
    let (from, to) = (random.pick(&places), random.pick(&places));
    let mut name = text[name_at(text, from)].to_vec();
    if random.once_in(3) {
        name.iter_mut().last().into_iter().for_each(|byte| *byte ^= 0x20);
    }
    text.splice(name_at(text, to), name);
}

/// The other operator in one place.
fn other_operator(random: &mut Random, text: &mut [u8]) {
    let places = [places(text, b'/'), places(text, b'*')].concat();
    if !places.is_empty() {
        let at = random.pick(&places);
        text[at] ^= b'/' ^ b'*';
    }
}

/// Bytes from a small alphabet after a beginning: texts near the form.
fn scribble(random: &mut Random) -> Vec<u8> {
    let start = random.pick(&[&b""[..], b"Aa=2", b"Aa=2/", b"(Aa=2", b"(Aa=2)", b"((Aa=2*Bb=3)", b"Aa=2*Bb="]);
    let alphabet = random.pick(&[&b"Ab=2/*()"[..], b"()", b"(Aa=2)/*", b"=123/A"]);
    let length = random.pick(&[0usize, 1, 2, 3, 5, 8, 13, 40, FORMULA]);
    let mut text = start.to_vec();
    text.extend((0..length).map(|_| random.pick(alphabet)));
    text
}

/// Names, counts and single bytes, one after the other.
fn tokens(text: &[u8]) -> Vec<Range<usize>> {
    let mut found: Vec<Range<usize>> = Vec::new();
    for (at, byte) in text.iter().enumerate() {
        let goes_on = byte.is_ascii_alphanumeric() && at > 0 && text[at - 1].is_ascii_alphanumeric();
        match found.last_mut().filter(|_| goes_on) {
            Some(last) => last.end = at + 1,
            None => found.push(at..at + 1),
        }
    }
    found
}

/// The bracket that belongs to an opening one.
fn partner(text: &[u8], opening: usize) -> Option<usize> {
    let mut depth = 0;
    (opening..text.len()).find(|&at| {
        depth += i32::from(text[at] == b'(') - i32::from(text[at] == b')');
        depth == 0
    })
}

/// Other bytes in the place of some.
fn instead(range: Range<usize>, other: &'static [u8]) -> Step {
    changed_text(0, move |text| Some([text.get(..range.start)?, other, text.get(range.end..)?].concat()))
}

/// Without two brackets that belong together.
fn unbracketed(opening: usize, closing: usize) -> Step {
    changed_text(0, move |text| Some([text.get(..opening)?, text.get(opening + 1..closing)?, text.get(closing + 1..)?].concat()))
}

/// A call's formula without some names, counts and single bytes that follow each other, without two brackets that belong together, with 2
/// for a count, with a name cut to two bytes.
pub fn smaller(call: &Call) -> Vec<Step> {
    let (text, tokens) = (&call.text, tokens(&call.text));
    let runs = [16, 8, 5, 4, 3, 2, 1].into_iter().flat_map(|count| tokens.windows(count));
    let mut found: Vec<Step> = runs.map(|run| instead(run[0].start..run[run.len() - 1].end, b"")).collect();
    let brackets = places(text, b'(').into_iter().filter_map(|opening| Some((opening, partner(text, opening)?)));
    found.extend(brackets.map(|(opening, closing)| unbracketed(opening, closing)));
    for equals in places(text, b'=') {
        let name = name_at(text, equals);
        found.push(instead(count_at(text, equals), b"2"));
        found.push(instead((name.start + 2).min(equals)..equals, b""));
    }
    found
}
