//! The sheet of a structure that is held as a Nelder formula: questions 6, 17 and 18.

use super::factor::Factor;
use super::sheet::{is_name, lend, written, Heading, Kind};
use crate::{Level, COLUMNS, FORMULA, PLOTS};

/// "all `/` (nesting) or all `*` (crossing)"
#[derive(Clone, Copy, PartialEq, Eq)]
enum Operator {
    Nesting,
    Crossing,
}

/// "one or more items joined by one operator"; a single item is joined by none.
struct Formula {
    operator: Option<Operator>,
    items: Vec<Item>,
}

/// "An item is a name, `=` and a decimal count .., or a formula in round brackets."
enum Item {
    Named(Vec<u8>, usize),
    Bracketed(Formula),
}

fn operator(byte: u8) -> Option<Operator> {
    match byte {
        b'/' => Some(Operator::Nesting),
        b'*' => Some(Operator::Crossing),
        _ => None,
    }
}

/// The text parted at the operators that stand outside all brackets, and these operators; None where a bracket has no partner.
fn parted(text: &[u8]) -> Option<(Vec<&[u8]>, Vec<Operator>)> {
    let (mut parts, mut operators) = (Vec::new(), Vec::new());
    let (mut depth, mut start) = (0usize, 0);
    for (at, &byte) in text.iter().enumerate() {
        match byte {
            b'(' => depth += 1,
            b')' => depth = depth.checked_sub(1)?,
            _ => {}
        }
        if let Some(operator) = operator(byte).filter(|_| depth == 0) {
            parts.push(&text[start..at]);
            operators.push(operator);
            start = at + 1;
        }
    }
    parts.push(&text[start..]);
    (depth == 0).then_some((parts, operators))
}

/// "A formula .. is one or more items joined by one operator, all `/` (nesting) or all `*` (crossing)."
fn formula_of(text: &[u8]) -> Option<Formula> {
    let (parts, operators) = parted(text)?;
    let one = operators.iter().all(|operator| *operator == operators[0]);
    let items = parts.into_iter().map(item).collect::<Option<_>>()?;
    one.then(|| Formula { operator: operators.first().copied(), items })
}

/// "An item is a name, `=` and a decimal count of 2 to 240 without leading zeros, or a formula in round brackets."
fn item(text: &[u8]) -> Option<Item> {
    if let Some(inside) = text.strip_prefix(b"(").and_then(|rest| rest.strip_suffix(b")")) {
        return formula_of(inside).map(Item::Bracketed);
    }
    let equals = text.iter().position(|&byte| byte == b'=')?;
    let (name, count) = (&text[..equals], count(&text[equals + 1..])?);
    is_name(name).then(|| Item::Named(name.to_vec(), count))
}

/// "a decimal count of 2 to 240 without leading zeros": the number that is written so.
fn count(text: &[u8]) -> Option<usize> {
    (2..=PLOTS).find(|count| count.to_string().as_bytes() == text)
}

impl Formula {
    /// The names with their counts "in the order written".
    fn names(&self) -> Vec<(&[u8], usize)> {
        self.items.iter().flat_map(Item::names).collect()
    }

    /// "With `/`, all names of a later item are nested in all names of earlier ones": each name with one that it is nested in.
    fn nested(&self) -> Vec<(&[u8], &[u8])> {
        let mut pairs = Vec::new();
        for (place, later) in self.items.iter().enumerate() {
            if let Item::Bracketed(inside) = later {
                pairs.extend(inside.nested());
            }
            if self.operator == Some(Operator::Nesting) {
                let outer: Vec<_> = self.items[..place].iter().flat_map(Item::names).collect();
                pairs.extend(later.names().iter().flat_map(|(name, _)| outer.iter().map(|(outer, _)| (*name, *outer))));
            }
        }
        pairs
    }
}

impl Item {
    fn names(&self) -> Vec<(&[u8], usize)> {
        match self {
            Item::Named(name, count) => vec![(name, *count)],
            Item::Bracketed(inside) => inside.names(),
        }
    }
}

/// "17 when the text isn't such a formula": "A formula of 1 to 256 bytes .. Names .. differ."
fn read(text: &[u8]) -> Option<Formula> {
    if !(1..=FORMULA).contains(&text.len()) {
        return None;
    }
    let formula = formula_of(text)?;
    let names = formula.names();
    let differ = (0..names.len()).all(|i| (0..i).all(|j| names[i].0 != names[j].0));
    differ.then_some(formula)
}

/// "18, after it, when there are over 6 names or 240 plots." The plots of many names are not counted: their number may be too large.
fn is_too_large(names: &[(&[u8], usize)]) -> bool {
    names.len() > COLUMNS || names.iter().map(|(_, count)| count).product::<usize>() > PLOTS
}

/// "Plots run over all combinations, the first name slowest": for each plot the number that it has of each name.
fn combinations(names: &[(&[u8], usize)]) -> Vec<Vec<usize>> {
    let mut plots = vec![Vec::new()];
    for (_, count) in names {
        let longer = |plot: &Vec<usize>| (0..*count).map(|number| [&plot[..], &[number]].concat()).collect::<Vec<_>>();
        plots = plots.iter().flat_map(longer).collect();
    }
    plots
}

/// "a plot column in which two plots share a level when they agree in that name and in every name it is nested in, levels by first
/// appearance"
fn column(plots: &[Vec<usize>], agreed: &[usize]) -> Vec<Level> {
    let labels: Vec<Vec<usize>> = plots.iter().map(|plot| agreed.iter().map(|&name| plot[name]).collect()).collect();
    Factor::of_labels(&labels).numbers().into_iter().map(Level::from).collect()
}

/// "Write the sheet from the formula .. Each name gives, in the order written, a plot column"
fn sheet_of(text: &[u8]) -> Result<Vec<u8>, u32> {
    let formula = read(text).ok_or(17u32)?;
    let names = formula.names();
    if is_too_large(&names) {
        return Err(18);
    }
    let (plots, nested) = (combinations(&names), formula.nested());
    let agreed = |name: &[u8]| -> Vec<usize> {
        (0..names.len()).filter(|&other| names[other].0 == name || nested.contains(&(name, names[other].0))).collect()
    };
    let headings: Vec<Heading> = names.iter().map(|(name, _)| Heading { kind: Kind::Plot, name: name.to_vec() }).collect();
    let columns: Vec<Vec<Level>> = names.iter().map(|(name, _)| column(&plots, &agreed(name))).collect();
    Ok(written(&headings, &columns))
}

/// "The lent sheet must hold 32,768 bytes .., asked first, and a refusal leaves it untouched. The sheet's length is answered and bytes past
/// it are untouched."
pub fn formula(text: &[u8], sheet: &mut [u8]) -> (u32, [u64; 1]) {
    lend(sheet, || sheet_of(text))
}
