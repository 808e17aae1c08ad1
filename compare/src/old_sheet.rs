//! Sheets numbered within parents made at random: whole ones, ones with a wrong parent, damaged ones, and scribbled bytes.

use crate::random::Random;
use crate::sheet::{damage_text, fill, sheet_text};
use crate::trial::trial_with_columns;
use reference::{PLOTS, TEXT};

/// A sheet, a damaged one, or scribbled bytes.
pub fn text(random: &mut Random) -> Vec<u8> {
    if random.once_in(10) {
        return scribble(random);
    }
    let trial = trial_with_columns(random);
    let mut text = sheet_text(random, trial.plots, &trial);
    if !random.once_in(12) {
        put_parents(random, &mut text);
    }
    match random.below(40) {
        0 => to_the_limit(random, &mut text),
        1 | 2 => other_count(random, &mut text),
        _ => (),
    }
    if random.once_in(8) {
        damage_title(random, &mut text);
    }
    damage_text(random, &mut text);
    text
}

/// The fields of the first line.
fn titles(text: &[u8]) -> Vec<String> {
    let end = text.iter().position(|&byte| byte == 10).unwrap_or(text.len());
    String::from_utf8_lossy(&text[..end]).split('\t').map(str::to_string).collect()
}

/// The text with another first line.
fn put_titles(text: &mut Vec<u8>, titles: &[String]) {
    let end = text.iter().position(|&byte| byte == 10).unwrap_or(text.len());
    text.splice(..end, titles.join("\t").into_bytes());
}

/// Gives plot columns a parent: some, or each that has one to its left. Mostly it is one of these, so that there are chains.
fn put_parents(random: &mut Random, text: &mut Vec<u8>) {
    let mut titles = titles(text);
    let names: Vec<String> = titles.iter().map(|title| title.chars().skip(2).collect()).collect();
    let (all, chain) = (random.once_in(3), random.once_in(3));
    for field in 0..titles.len() {
        let left: Vec<&String> = (0..field).filter(|&left| titles[left].starts_with('p')).map(|left| &names[left]).collect();
        if !titles[field].starts_with('p') || !(all || random.once_in(2)) {
            continue;
        }
        let parent = match random.below(30) {
            0 => random.pick(&names),
            1 => random.pick(&["Nobody", "Hu", "Hutt", "hut", "Longestname2"]).to_string(),
            _ if left.is_empty() => continue,
            _ if chain => left[left.len() - 1].clone(),
            _ => random.pick(&left).clone(),
        };
        titles[field] += &format!("/{parent}");
    }
    put_titles(text, &titles);
}

/// The plot lines of a text.
fn lines(text: &[u8]) -> &[u8] {
    let line = text.iter().position(|&byte| byte == 10).map_or(text.len(), |end| end + 1);
    &text[line..]
}

/// Another number of plots: none, or the same plots again and again until there are as many as there may be, or a few less or more.
fn other_count(random: &mut Random, text: &mut Vec<u8>) {
    let each: Vec<Vec<u8>> = lines(text).split_inclusive(|&byte| byte == 10).map(<[u8]>::to_vec).collect();
    let wanted = random.pick(&[0, PLOTS - 1, PLOTS, PLOTS + 1, PLOTS + 1, PLOTS + 2]);
    text.truncate(text.len() - lines(text).len());
    text.extend(each.iter().cycle().take(if each.is_empty() { 0 } else { wanted }).flatten());
}

/// Adds plot lines until the text, with its parents or but for them, has as many bytes as it may have, or a few less or more.
fn to_the_limit(random: &mut Random, text: &mut Vec<u8>) {
    let lines = lines(text).to_vec();
    let slash_parts: usize = titles(text).iter().filter_map(|title| title.find('/').map(|at| title.len() - at)).sum();
    let more = if random.once_in(2) { slash_parts } else { 0 };
    if !lines.is_empty() {
        fill(text, &lines, TEXT + more - 1 + random.below(3));
    }
}

/// Fields that name a parent or nearly so.
const TITLES: [&str; 20] = [
    "t:Gain/Hut", "t:Hut/Pier", "p:Pier/Hut/Week", "p:Pier/", "p:/Hut", "p:Pier//Hut", "p:Pier/H", "p:Pier/1a", "p:Pier/Abcdefghijkl",
    "p:Pier/Abcdefghijklm", "p:Pier/p:Hut", "p:Pier/Hu_t", "p:Pier/Hut ", "p:Pier/ Hut", "p:P/Hut", "p:Abcdefghijklm/Hut", "q:Pier/Hut",
    "p:Pier/Pier", "p:Hut/Hut", "/",
];

/// Damages the first line where a parent may stand: a field replaced, a slash added, a field made a treatment, fields exchanged.
fn damage_title(random: &mut Random, text: &mut Vec<u8>) {
    let mut titles = titles(text);
    let (field, other) = (random.below(titles.len()), random.below(titles.len()));
    match random.below(5) {
        0 | 1 => titles[field] = random.pick(&TITLES).to_string(),
        2 => {
            let at = random.below(titles[field].len() + 1);
            titles[field].insert(at, '/');
        }
        3 => titles[field] = titles[field].replacen('p', "t", 1),
        _ => titles.swap(field, other),
    }
    put_titles(text, &titles);
}

/// Bytes from a small alphabet after a beginning with a parent: texts near the form.
fn scribble(random: &mut Random) -> Vec<u8> {
    let alphabet = random.pick(&[&b"p:t:Aab1/\t\n"[..], b"p:Aa/\n1\n\t", b"/19\n\t"]);
    let start = random.pick(&[&b""[..], b"p:Aa\tp:Bb/Aa\n", b"p:Aa\tp:Bb/", b"p:Aa\tp:Bb/A", b"p:Bb/Aa\n1\n", b"p:Aa/Aa\tp:Aa\n"]);
    let mut text = start.to_vec();
    text.extend((0..random.pick(&[0usize, 1, 2, 3, 5, 8, 13, 40])).map(|_| random.pick(alphabet)));
    text
}
