//! Pixel sets in a box, as they are drawn.

use second::shape::Shape;

/// A set of cells of a box, kept row by row, the bottom row first.
#[derive(Clone, Debug, PartialEq, Eq)]
pub struct Grid {
    pub columns: usize,
    pub rows: usize,
    members: Vec<bool>,
}

impl Grid {
    /// The cells of a box that satisfy a condition.
    pub fn new(columns: usize, rows: usize, has: impl Fn(usize, usize) -> bool) -> Grid {
        Grid {
            columns,
            rows,
            members: box_cells(columns, rows).map(|(x, y)| has(x, y)).collect(),
        }
    }

    /// The pixels of a shape.
    pub fn of_shape(shape: &Shape) -> Grid {
        Grid::new(shape.columns(), shape.rows(), |x, y| shape.has(x, y))
    }

    /// The marks `#` of rows of equal length, the bottom row first.
    #[cfg(test)]
    pub fn of_marks(rows: &[&str]) -> Grid {
        let is_set = |x: usize, y: usize| rows[y].as_bytes()[x] == b'#';
        Grid::new(rows[0].len(), rows.len(), is_set)
    }

    /// The cells of the set, row by row.
    pub fn cells(&self) -> impl Iterator<Item = (usize, usize)> + '_ {
        box_cells(self.columns, self.rows).filter(|&(x, y)| self.has(x, y))
    }

    /// Whether the set has a cell; outside the box it has none.
    pub fn has(&self, x: usize, y: usize) -> bool {
        x < self.columns && y < self.rows && self.members[y * self.columns + x]
    }

    /// The number of cells of the set.
    pub fn count(&self) -> usize {
        self.cells().count()
    }
}

/// All cells of a box, row by row.
fn box_cells(columns: usize, rows: usize) -> impl Iterator<Item = (usize, usize)> {
    (0..rows).flat_map(move |y| (0..columns).map(move |x| (x, y)))
}
