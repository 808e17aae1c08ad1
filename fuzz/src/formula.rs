//! Changes that keep a formula well formed.

use crate::mutator::Chance;
use reference::FORMULA;

/// Items joined by one operator; a single item has one too, which is not written.
#[derive(Clone)]
struct List {
    operator: char,
    items: Vec<Item>,
}

#[derive(Clone)]
enum Item {
    Named(String, usize),
    Bracketed(List),
}

/// Takes this character from the beginning of a text.
fn take(rest: &mut &str, wanted: char) -> Option<()> {
    *rest = rest.strip_prefix(wanted)?;
    Some(())
}

/// Takes letters and digits from the beginning of a text.
fn word<'a>(rest: &mut &'a str) -> &'a str {
    let end = rest.find(|c: char| !c.is_ascii_alphanumeric()).unwrap_or(rest.len());
    let (word, after) = rest.split_at(end);
    *rest = after;
    word
}

impl Item {
    /// An item at the beginning of a text, with any name and any count.
    fn read(rest: &mut &str) -> Option<Item> {
        if take(rest, '(').is_some() {
            let inside = List::read(rest)?;
            return take(rest, ')').map(|()| Item::Bracketed(inside));
        }
        let name = word(rest).to_string();
        take(rest, '=')?;
        word(rest).parse().ok().map(|count| Item::Named(name, count))
    }

    fn write(&self) -> String {
        match self {
            Item::Named(name, count) => format!("{name}={count}"),
            Item::Bracketed(inside) => format!("({})", inside.write()),
        }
    }
}

impl List {
    fn read(rest: &mut &str) -> Option<List> {
        let mut list = List { operator: '/', items: vec![Item::read(rest)?] };
        while let Some(operator) = rest.chars().next().filter(|c| ['/', '*'].contains(c)) {
            take(rest, operator)?;
            list.operator = operator;
            list.items.push(Item::read(rest)?);
        }
        Some(list)
    }

    fn write(&self) -> String {
        self.items.iter().map(Item::write).collect::<Vec<_>>().join(&self.operator.to_string())
    }

    /// The number of lists, this one and those in its brackets.
    fn lists(&self) -> usize {
        let inside = |item: &Item| if let Item::Bracketed(list) = item { list.lists() } else { 0 };
        1 + self.items.iter().map(inside).sum::<usize>()
    }

    /// One of these lists by its number, from 0.
    fn list(&mut self, number: &mut usize) -> Option<&mut List> {
        if *number == 0 {
            return Some(self);
        }
        *number -= 1;
        self.items.iter_mut().find_map(|item| if let Item::Bracketed(list) = item { list.list(number) } else { None })
    }
}

/// One change of one list.
type Change = fn(&mut List, &mut Chance);

const CHANGES: [Change; 8] = [other_operator, other_count, other_count, add_item, add_item, remove_item, bracket, unbracket];

fn other_operator(list: &mut List, _: &mut Chance) {
    list.operator = if list.operator == '/' { '*' } else { '/' };
}

fn other_count(list: &mut List, chance: &mut Chance) {
    let at = chance.below(list.items.len());
    if let Item::Named(_, count) = &mut list.items[at] {
        *count = [2, 2, 3, 3, 4, 5, 10, 15, 16, 64, 128, 240][chance.below(12)];
    }
}

/// Another item, mostly with a new name.
fn add_item(list: &mut List, chance: &mut Chance) {
    let at = chance.below(list.items.len() + 1);
    let [first, second] = [0; 2].map(|_| char::from(b'A' + chance.below(26) as u8));
    let name = format!("{first}{}", second.to_string().repeat([1, 1, 2, 11][chance.below(4)]));
    list.items.insert(at, Item::Named(name, 2 + chance.below(2)));
}

fn remove_item(list: &mut List, chance: &mut Chance) {
    if list.items.len() > 1 {
        list.items.remove(chance.below(list.items.len()));
    }
}

/// Brackets around some items that follow each other, with an operator of their own.
fn bracket(list: &mut List, chance: &mut Chance) {
    let from = chance.below(list.items.len());
    let to = from + 1 + chance.below(list.items.len() - from);
    let operator = ['/', '*'][chance.below(2)];
    let items = list.items.drain(from..to).collect();
    list.items.insert(from, Item::Bracketed(List { operator, items }));
}

/// The items of a bracket in its place.
fn unbracket(list: &mut List, chance: &mut Chance) {
    let at = chance.below(list.items.len());
    if let Item::Bracketed(inside) = list.items[at].clone() {
        list.items.splice(at..=at, inside.items);
    }
}

/// The text after one to four changes, with the line end that it had; nothing if it is no formula, is far too long for one, or would not
/// fit.
pub fn changed(text: &[u8], most: usize, chance: &mut Chance) -> Option<Vec<u8>> {
    let text = std::str::from_utf8(text).ok().filter(|text| text.len() <= 2 * FORMULA)?;
    let mut rest = text;
    let mut formula = List::read(&mut rest)?;
    if !["", "\n"].contains(&rest) {
        return None;
    }
    for _ in 0..1 + chance.below(4) {
        let mut number = chance.below(formula.lists());
        let list = formula.list(&mut number)?;
        CHANGES[chance.below(CHANGES.len())](list, chance);
    }
    let written = formula.write() + rest;
    (written.len() <= most).then(|| written.into_bytes())
}
