//! The same entries, built for speed.
//!
//! A factor is a column of class numbers, one byte a plot, numbered by first appearance. Plots that share all levels of the
//! columns at hand are taken together as one point with a weight, since no member but E parts them. Two columns are walked
//! once: that gives the cells of their infimum, and joining classes along the cells gives their supremum. Nothing is
//! allocated.

entries!(modules);

mod closing;
mod column;
mod design;
mod order;
mod sheet;
mod work;
