//! Columns of class numbers: numbering, and the walk over two of them that gives infimum and supremum.

use crate::{Level, COLUMNS, PLOTS};

/// Class numbers from 1, one a point; points past those in use hold anything.
pub type Column = [u8; PLOTS];

/// For each class number of a column a byte.
pub type ByClass = [u8; 256];

/// The numbered columns of one kind.
pub struct Columns {
    pub count: usize,
    pub classes: [u8; COLUMNS],
    pub columns: [Column; COLUMNS],
}

impl Columns {
    /// Numbers the columns whose cells start at the given column of a level table; every level is nonzero.
    pub fn number(levels: &[Level], first: usize, count: usize, plots: usize) -> Columns {
        let mut found = Columns { count, classes: [0; COLUMNS], columns: [[0; PLOTS]; COLUMNS] };
        for c in 0..count {
            let cells = &levels[PLOTS * (first + c)..PLOTS * (first + c) + plots];
            found.classes[c] = number(cells, &mut found.columns[c]);
        }
        found
    }
}

/// Numbers at most 240 levels of any value by first appearance; answers the number of classes.
pub fn number(levels: &[Level], column: &mut Column) -> u8 {
    if levels.iter().fold(0, |most, &level| most.max(level)) < 256 {
        number_small(levels, column)
    } else {
        number_any(levels, column)
    }
}

/// Levels below 256: a table from level to class.
fn number_small(levels: &[Level], column: &mut Column) -> u8 {
    let mut class: ByClass = [0; 256];
    let mut count = 0;
    for (&level, number) in levels.iter().zip(column) {
        let class = &mut class[usize::from(level as u8)];
        if *class == 0 {
            count += 1;
            *class = count;
        }
        *number = *class;
    }
    count
}

/// Slots of the table for any levels, and the odd number that scatters levels over them.
const SLOTS: usize = 512;
const SCATTER: Level = (0x9E37_79B9_7F4A_7C15_u64 >> (u64::BITS - Level::BITS)) as Level;

/// Any levels, 0 too: a table of slots, at most 240 of them taken. A slot is taken when it has a class.
fn number_any(levels: &[Level], column: &mut Column) -> u8 {
    let mut label: [Level; SLOTS] = [0; SLOTS];
    let mut class = [0u8; SLOTS];
    let mut count = 0;
    for (&level, number) in levels.iter().zip(column) {
        let mut slot = (level.wrapping_mul(SCATTER) >> (Level::BITS - SLOTS.ilog2())) as usize;
        while class[slot] != 0 && label[slot] != level {
            slot = (slot + 1) % SLOTS;
        }
        if class[slot] == 0 {
            count += 1;
            label[slot] = level;
            class[slot] = count;
        }
        *number = class[slot];
    }
    count
}

/// What a walk over two columns F and G finds: the cells, which are the classes of the infimum, and the classes of the
/// supremum.
pub struct Walk {
    /// Number of cells.
    pub cells: usize,
    /// The infimum: for each point the number of its cell.
    pub infimum: Column,
    /// For each cell, from 0, its classes in F and G.
    f: ByClass,
    g: ByClass,
    /// Number of classes of the supremum.
    pub joined: usize,
    /// For each class of F the number of its class in the supremum.
    joined_of: ByClass,
    /// From a pair of classes to its cell.
    table: [u8; PLOTS * PLOTS],
}

impl Walk {
    pub const fn new() -> Walk {
        Walk {
            cells: 0,
            infimum: [0; PLOTS],
            f: [0; 256],
            g: [0; 256],
            joined: 0,
            joined_of: [0; 256],
            table: [0; PLOTS * PLOTS],
        }
    }

    /// Finds the cells of two columns of equal length with so many classes.
    #[inline]
    pub fn meet(&mut self, f: &[u8], f_classes: u8, g: &[u8], g_classes: u8) {
        let width = usize::from(g_classes);
        let before = width + 1;
        let table = &mut self.table[..usize::from(f_classes) * width];
        table.fill(0);
        let mut cells = 0u8;
        for ((&a, &b), infimum) in f.iter().zip(g).zip(&mut self.infimum) {
            let cell = &mut table[usize::from(a) * width + usize::from(b) - before];
            if *cell == 0 {
                self.f[usize::from(cells)] = a;
                self.g[usize::from(cells)] = b;
                cells += 1;
                *cell = cells;
            }
            *infimum = *cell;
        }
        self.cells = usize::from(cells);
    }

    /// Joins the classes of F along the cells: a class of G joins all classes of F that it meets. Links go to the lower
    /// class, so the classes of the supremum are numbered by first appearance.
    #[inline]
    pub fn join(&mut self, f_classes: u8) {
        let mut parent = EACH_ITS_OWN;
        let mut met: ByClass = [0; 256];
        let mut joined = usize::from(f_classes);
        for (&a, &b) in self.f[..self.cells].iter().zip(&self.g) {
            let first = &mut met[usize::from(b)];
            if *first == 0 {
                *first = a;
                continue;
            }
            let (x, y) = (root(&mut parent, *first), root(&mut parent, a));
            if x != y {
                parent[usize::from(x.max(y))] = x.min(y);
                joined -= 1;
                if joined == 1 {
                    break;
                }
            }
        }
        self.joined = joined;
        let mut count = 0;
        for class in 1..=usize::from(f_classes) {
            let above = usize::from(parent[class]);
            self.joined_of[class] = if above == class || joined == 1 {
                count = if joined == 1 { 1 } else { count + 1 };
                count
            } else {
                self.joined_of[above]
            };
        }
    }

    /// The supremum's column, from F's.
    #[inline]
    pub fn supremum(&self, f: &[u8], column: &mut Column) {
        for (&class, number) in f.iter().zip(column) {
            *number = self.joined_of[usize::from(class)];
        }
    }

    /// Whether F and G are orthogonal, after meet and join. Only cells that hold a point need the test: where these satisfy
    /// it, the classes of G that meet a class of F add up to the class of the supremum, so no cell inside it is empty.
    #[inline]
    pub fn orthogonal(&self, weights: &[u8], f_sizes: &ByClass, f_classes: u8, g_sizes: &ByClass) -> bool {
        let mut cell_sizes: ByClass = [0; 256];
        for (&cell, &weight) in self.infimum.iter().zip(weights) {
            cell_sizes[usize::from(cell)] += weight;
        }
        let mut joined_sizes: ByClass = [0; 256];
        for class in 1..=usize::from(f_classes) {
            joined_sizes[usize::from(self.joined_of[class])] += f_sizes[class];
        }
        (0..self.cells).all(|i| {
            let (a, b) = (usize::from(self.f[i]), usize::from(self.g[i]));
            let k = joined_sizes[usize::from(self.joined_of[a])];
            u16::from(cell_sizes[i + 1]) * u16::from(k) == u16::from(f_sizes[a]) * u16::from(g_sizes[b])
        })
    }
}

/// Every class its own root.
const EACH_ITS_OWN: ByClass = {
    let mut classes = [0; 256];
    let mut class = 0;
    while class < 256 {
        classes[class] = class as u8;
        class += 1;
    }
    classes
};

/// The root of a class, shortening the way to it.
#[inline]
fn root(parent: &mut ByClass, mut class: u8) -> u8 {
    while parent[usize::from(class)] != class {
        let above = parent[usize::from(parent[usize::from(class)])];
        parent[usize::from(class)] = above;
        class = above;
    }
    class
}

/// The sizes of a column's classes.
pub fn sizes(column: &[u8], weights: &[u8]) -> ByClass {
    let mut sizes: ByClass = [0; 256];
    for (&class, &weight) in column.iter().zip(weights) {
        sizes[usize::from(class)] += weight;
    }
    sizes
}

/// For each plot the first plot of its class.
pub fn leaders(column: &[u8]) -> Column {
    let mut first: ByClass = [0; 256];
    let mut leaders = [0; PLOTS];
    let mut count = 0;
    for (plot, (&class, leader)) in column.iter().zip(&mut leaders).enumerate() {
        if class > count {
            count = class;
            first[usize::from(class)] = plot as u8;
        }
        *leader = first[usize::from(class)];
    }
    leaders
}

/// Whether the factor with these leaders is finer than or equivalent to the column: each plot shares the column's class
/// with its leader.
#[inline]
pub fn is_finer(leaders: &Column, column: &[u8]) -> bool {
    column.iter().zip(leaders).all(|(class, &leader)| column[usize::from(leader)] == *class)
}

/// Whether a column, numbered by first appearance, is finer than or equivalent to another one: each of its classes lies in one of the
/// other's.
#[inline]
pub fn refines(fine: &[u8], coarse: &[u8]) -> bool {
    let mut of_class: ByClass = [0; 256];
    let mut count = 0;
    fine.iter().zip(coarse).all(|(&class, &other)| {
        if class > count {
            count = class;
            of_class[usize::from(class)] = other;
        }
        of_class[usize::from(class)] == other
    })
}
