//! The formulas that are timed: few plots and many, deep brackets, and texts that are refused late.

use crate::sheets::Sheet;

/// So many names of two letters with two levels each, joined by an operator.
fn joined(names: u8, operator: &str) -> String {
    let name = |i: u8| format!("{}{}=2", char::from(b'A' + i / 26), char::from(b'a' + i % 26));
    (0..names).map(name).collect::<Vec<_>>().join(operator)
}

pub fn all() -> Vec<Sheet> {
    let brackets = ["(".repeat(126), "Aa=2".to_string(), ")".repeat(126)].concat();
    let formulas = [
        ("2 names, 4 plots", "Hut=2/Pier=2".to_string()),
        ("3 names, 24 plots", "Block=2/(Row=3*Column=4)".to_string()),
        ("6 names, 64 plots", joined(6, "*")),
        ("6 names crossed, 240 plots", "Aa=2*Bb=2*Cc=2*Dd=2*Ee=3*Ff=5".to_string()),
        ("6 names nested, 240 plots", "Aa=5/Bb=3/Cc=2/Dd=2/Ee=2/Ff=2".to_string()),
        ("1 name, 240 plots", "Plot=240".to_string()),
        ("126 pairs of brackets", brackets),
        ("51 names", joined(51, "*")),
        ("50 names, the first again", joined(50, "/") + "/Aa=2"),
        ("256 opening brackets", "(".repeat(256)),
    ];
    formulas.into_iter().map(|(title, text)| Sheet { title: format!("formula: {title}"), text: text.into_bytes() }).collect()
}
