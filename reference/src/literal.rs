//! The rules as they are written: factors are sets of classes, classes are sets of plots, and every function says one rule.
//!
//! The comment above a function quotes the rule that it answers; numbers are those of the questions asked in turn.

entries!(modules);

mod design;
mod factor;
mod family;
mod sheet;
