//! Families on points: plots taken together, closing, and the order of members.

use super::column::{sizes, ByClass, Column, Columns, Walk};
use crate::{MEMBERS, PLOTS};

/// Plots that no column at hand parts, taken together. Points are numbered by first appearance, so a column of class numbers
/// over points is numbered and compared as it would be over plots.
pub struct Points {
    pub count: usize,
    /// For each plot its point, from 1.
    pub of: Column,
    /// For each point its number of plots and its first plot.
    pub weights: Column,
    pub first: Column,
}

impl Points {
    /// The points of a kind's columns.
    pub fn of_columns(columns: &Columns, plots: usize, walk: &mut Walk) -> Points {
        let mut of = if columns.count == 0 { [1; PLOTS] } else { columns.columns[0] };
        let mut count = if columns.count == 0 { 1 } else { columns.classes[0] };
        for c in 1..columns.count {
            if usize::from(count) == plots {
                break;
            }
            walk.meet(&of[..plots], count, &columns.columns[c][..plots], columns.classes[c]);
            if walk.cells > usize::from(count) {
                count = walk.cells as u8;
                of = walk.infimum;
            }
        }
        Points::new(of, usize::from(count), plots)
    }

    /// The points that two sets of points part together.
    pub fn together(&self, other: &Points, plots: usize, walk: &mut Walk) -> Points {
        if self.count == plots {
            return Points::new(self.of, plots, plots);
        }
        walk.meet(&self.of[..plots], self.count as u8, &other.of[..plots], other.count as u8);
        Points::new(walk.infimum, walk.cells, plots)
    }

    fn new(of: Column, count: usize, plots: usize) -> Points {
        let (mut weights, mut first) = ([0; PLOTS], [0; PLOTS]);
        let mut known = 0;
        for (plot, &point) in of[..plots].iter().enumerate() {
            let i = usize::from(point - 1);
            if point > known {
                known = point;
                first[i] = plot as u8;
            }
            weights[i] += 1;
        }
        Points { count, of, weights, first }
    }

    /// A column over plots as one over points.
    pub fn reduce(&self, column: &Column) -> Column {
        let mut reduced = [0; PLOTS];
        for (number, &plot) in reduced[..self.count].iter_mut().zip(&self.first) {
            *number = column[usize::from(plot)];
        }
        reduced
    }

    /// A column over points as one over plots.
    pub fn expand(&self, column: &Column, plots: &mut [u8]) {
        if self.count == plots.len() {
            plots.copy_from_slice(&column[..plots.len()]);
            return;
        }
        for (number, &point) in plots.iter_mut().zip(&self.of) {
            *number = column[usize::from(point - 1)];
        }
    }
}

/// The members of a family without U (and, of plots, without E), over points, in the order of their discovery until they are
/// sorted.
pub struct Members {
    pub points: usize,
    pub count: usize,
    /// How many there may be for the family to have at most 32.
    limit: usize,
    pub columns: [Column; MEMBERS],
    pub classes: [u8; MEMBERS],
    /// For each member a number that differs only where the columns do.
    keys: [u64; MEMBERS],
    pub sizes: [ByClass; MEMBERS],
    /// For each member those known to be coarser, a bit each; there may be more.
    pub above: [u32; MEMBERS],
    /// For each member those not orthogonal to it, a bit each.
    crooked: [u32; MEMBERS],
}

/// A number from the count of classes and some of the points; equal columns have equal ones.
#[inline]
fn key(column: &Column, points: usize, classes: u8) -> u64 {
    let step = points / 8;
    let some = |key: u64, i: usize| key << 7 ^ u64::from(column[i * step]);
    (1..8).fold(u64::from(classes), some)
}

/// More members than a family may have.
pub struct TooMany;

impl Members {
    pub const fn new() -> Members {
        Members {
            points: 0,
            count: 0,
            limit: 0,
            columns: [[0; PLOTS]; MEMBERS],
            classes: [0; MEMBERS],
            keys: [0; MEMBERS],
            sizes: [[0; 256]; MEMBERS],
            above: [0; MEMBERS],
            crooked: [0; MEMBERS],
        }
    }

    /// Begins anew with no member.
    pub fn begin(&mut self, points: usize, limit: usize) {
        (self.points, self.limit, self.count) = (points, limit, 0);
    }

    /// Takes over the members of a family in order, given by their columns over these points.
    pub fn begin_with(&mut self, columns: &[Column; MEMBERS], order: &[u8; MEMBERS], family: &Members) {
        for (place, &i) in order[..family.count].iter().enumerate() {
            self.columns[place][..self.points].copy_from_slice(&columns[place][..self.points]);
            self.classes[place] = family.classes[usize::from(i)];
            self.keys[place] = key(&columns[place], self.points, self.classes[place]);
        }
        self.count = family.count;
    }

    pub fn column(&self, i: usize) -> &[u8] {
        &self.columns[i][..self.points]
    }

    /// Adds a column with so many classes unless it is known; answers its index.
    pub fn add(&mut self, column: &Column, classes: u8) -> Result<usize, TooMany> {
        let key = key(column, self.points, classes);
        for i in 0..self.count {
            if self.keys[i] == key && self.columns[i][..self.points] == column[..self.points] {
                return Ok(i);
            }
        }
        if self.count >= self.limit {
            return Err(TooMany);
        }
        let i = self.count;
        self.columns[i][..self.points].copy_from_slice(&column[..self.points]);
        self.classes[i] = classes;
        self.keys[i] = key;
        (self.above[i], self.crooked[i]) = (0, 0);
        self.count += 1;
        Ok(i)
    }

    fn comparable(&self, i: usize, j: usize) -> bool {
        (self.above[i] >> j | self.above[j] >> i) & 1 == 1
    }

    /// Notes that one is finer than the other, with what follows for those above.
    fn note_finer(&mut self, finer: usize, coarser: usize) {
        self.above[finer] |= 1 << coarser | self.above[coarser];
    }

    /// The infimum of i and j: what is above either is above it, and what is below both is below it.
    fn note_infimum(&mut self, at: usize, i: usize, j: usize) {
        let both = 1 << i | 1 << j;
        self.above[at] |= both | self.above[i] | self.above[j];
        let word = 1 << at | self.above[at];
        for (x, above) in self.above[..self.count].iter_mut().enumerate() {
            if *above & both == both && x != at {
                *above |= word;
            }
        }
    }

    /// The supremum of i and j: what is above both is above it, and what is below either is below it.
    fn note_supremum(&mut self, at: usize, i: usize, j: usize) {
        self.above[at] |= self.above[i] & self.above[j] & !(1 << at);
        let word = 1 << at | self.above[at];
        let either = 1 << i | 1 << j;
        for above in &mut self.above[..self.count] {
            if *above & either != 0 {
                *above |= word;
            }
        }
        self.above[i] |= word;
        self.above[j] |= word;
    }

    /// Walks a pair; false when one is finer than the other, which is noted: such a pair is orthogonal and brings nothing.
    fn walk_pair(&mut self, i: usize, j: usize, walk: &mut Walk) -> bool {
        let (f, g) = (self.classes[i], self.classes[j]);
        walk.meet(&self.columns[i][..self.points], f, &self.columns[j][..self.points], g);
        if walk.cells == usize::from(f) {
            self.note_finer(i, j);
            return false;
        }
        if walk.cells == usize::from(g) {
            self.note_finer(j, i);
            return false;
        }
        walk.join(f);
        true
    }

    /// Adds the supremum of a walked pair.
    fn add_supremum(&mut self, i: usize, j: usize, walk: &Walk) -> Result<(), TooMany> {
        if walk.joined == 1 {
            return Ok(());
        }
        let mut column = [0; PLOTS];
        walk.supremum(&self.columns[i][..self.points], &mut column);
        let at = self.add(&column, walk.joined as u8)?;
        self.note_supremum(at, i, j);
        Ok(())
    }

    /// Closes plot members under infimum and supremum. Each pair is walked once; by the counts of classes it is noted
    /// whether the pair is orthogonal, which holds when all members have classes of one size.
    pub fn close_plots(&mut self, plots: usize, walk: &mut Walk) -> Result<(), TooMany> {
        let mut j = 1;
        while j < self.count {
            for i in 0..j {
                if self.comparable(i, j) || !self.walk_pair(i, j, walk) {
                    continue;
                }
                if walk.cells < plots {
                    let infimum = walk.infimum;
                    let at = self.add(&infimum, walk.cells as u8)?;
                    self.note_infimum(at, i, j);
                }
                self.add_supremum(i, j, walk)?;
                if walk.cells * walk.joined != usize::from(self.classes[i]) * usize::from(self.classes[j]) {
                    self.crooked[i] |= 1 << j;
                    self.crooked[j] |= 1 << i;
                }
            }
            j += 1;
        }
        Ok(())
    }

    /// Closes treatment members under supremum, noting each pair that is not orthogonal.
    pub fn close_treatments(&mut self, weights: &Column, walk: &mut Walk) -> Result<(), TooMany> {
        let mut j = 0;
        while j < self.count {
            self.measure(j, weights);
            for i in 0..j {
                if self.comparable(i, j) || !self.walk_pair(i, j, walk) {
                    continue;
                }
                self.add_supremum(i, j, walk)?;
                let weights = &weights[..self.points];
                if !walk.orthogonal(weights, &self.sizes[i], self.classes[i], &self.sizes[j]) {
                    self.crooked[i] |= 1 << j;
                    self.crooked[j] |= 1 << i;
                }
            }
            j += 1;
        }
        Ok(())
    }

    /// Works out the sizes of a member's classes.
    pub fn measure(&mut self, i: usize, weights: &Column) {
        self.sizes[i] = sizes(&self.columns[i][..self.points], weights);
    }

    /// The indices in the order of a family: by number of classes, then by columns.
    pub fn order(&self) -> [u8; MEMBERS] {
        let mut order: [u8; MEMBERS] = std::array::from_fn(|i| i as u8);
        order[..self.count].sort_unstable_by(|&a, &b| {
            let (a, b) = (usize::from(a), usize::from(b));
            self.classes[a].cmp(&self.classes[b]).then_with(|| self.column(a).cmp(self.column(b)))
        });
        order
    }

    /// The first pair in this order that is not orthogonal, places from 0.
    pub fn first_crooked_pair(&self, order: &[u8; MEMBERS]) -> Option<(usize, usize)> {
        for (i, &a) in order[..self.count].iter().enumerate() {
            let crooked = self.crooked[usize::from(a)];
            if crooked != 0 {
                let later = order[i + 1..self.count].iter().position(|&b| crooked >> b & 1 == 1);
                if let Some(j) = later {
                    return Some((i, i + 1 + j));
                }
            }
        }
        None
    }
}
