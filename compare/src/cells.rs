//! Tables of numbers of any type, as the written form and the steps that make a call smaller see them.

use reference::PLOTS;

/// A table that a call hands over, in rows of 240 cells.
pub trait Cells {
    fn length(&self) -> usize;
    /// Cells that are not 0, a row a line, equal ones counted.
    fn written(&self) -> String;
    /// Fills cells from a place on with the numbers of `1,2x3 7`: 1 2 1 2 1 2 7.
    fn fill(&mut self, at: usize, list: &str) -> Result<(), String>;
    /// Becomes so many zeros.
    fn begin(&mut self, length: usize);
    /// Cells from a place on become 0.
    fn clear(&mut self, from: usize, count: usize);
    fn cut(&mut self, length: usize);
    /// How often a cell is another than the one before it: so long is the table as it is written.
    fn changes(&self) -> usize;
    /// In each row with all plots these plots in this order come first.
    fn choose(&mut self, plots: usize, chosen: &[usize]);
}

impl<T: Copy + Default + PartialEq + std::fmt::Display + std::str::FromStr> Cells for Vec<T> {
    fn length(&self) -> usize {
        self.len()
    }

    fn written(&self) -> String {
        let row = |(i, row): (usize, &[T])| {
            let used = row.iter().rposition(|&cell| cell != T::default())? + 1;
            let run = |run: &[T]| if run.len() == 1 { run[0].to_string() } else { format!("{}x{}", run[0], run.len()) };
            let runs: Vec<String> = row[..used].chunk_by(|a, b| a == b).map(run).collect();
            Some(format!("at {}: {}\n", PLOTS * i, runs.join(" ")))
        };
        self.chunks(PLOTS).enumerate().filter_map(row).collect()
    }

    fn fill(&mut self, mut at: usize, list: &str) -> Result<(), String> {
        for group in list.split(' ') {
            let (values, times) = group.split_once('x').unwrap_or((group, "1"));
            let values: Vec<T> = values.split(',').map(number).collect::<Result<_, _>>()?;
            for value in values.repeat(number(times)?) {
                *self.get_mut(at).ok_or("past the end of the table")? = value;
                at += 1;
            }
        }
        Ok(())
    }

    fn begin(&mut self, length: usize) {
        *self = vec![T::default(); length];
    }

    fn clear(&mut self, from: usize, count: usize) {
        let end = (from + count).min(self.len());
        self[from.min(end)..end].fill(T::default());
    }

    fn cut(&mut self, length: usize) {
        self.truncate(length);
    }

    fn changes(&self) -> usize {
        self.windows(2).filter(|pair| pair[0] != pair[1]).count()
    }

    fn choose(&mut self, plots: usize, chosen: &[usize]) {
        for row in self.chunks_mut(PLOTS).filter(|row| row.len() >= plots) {
            let moved: Vec<T> = chosen.iter().map(|&u| row[u]).collect();
            row[..moved.len()].copy_from_slice(&moved);
        }
    }
}

/// A number of any type.
pub fn number<T: std::str::FromStr>(field: &str) -> Result<T, String> {
    field.parse().map_err(|_| format!("no number {field}"))
}
