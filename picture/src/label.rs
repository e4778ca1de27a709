//! The place of a piece's number.

use crate::grid::Grid;

/// A square of cells: the column and row of its bottom-left cell, and its side.
#[derive(Clone, Copy, Debug, PartialEq, Eq)]
pub struct Square {
    pub x: usize,
    pub y: usize,
    pub side: usize,
}

/// A largest square inside a set, nearest to the middle of the box, if the set has a cell.
pub fn largest_square(grid: &Grid) -> Option<Square> {
    // A square's side at its top-right cell is one more than the least of its three neighbours there.
    let mut sides = vec![0; grid.columns * grid.rows];
    let mut best: Option<Square> = None;
    for (x, y) in grid.cells() {
        let side_at = |x: usize, y: usize| sides[y * grid.columns + x];
        let side = if x == 0 || y == 0 {
            1
        } else {
            1 + side_at(x - 1, y)
                .min(side_at(x, y - 1))
                .min(side_at(x - 1, y - 1))
        };
        sides[y * grid.columns + x] = side;
        let square = Square {
            x: x + 1 - side,
            y: y + 1 - side,
            side,
        };
        if best.is_none_or(|best| rank(grid, square) < rank(grid, best)) {
            best = Some(square);
        }
    }
    best
}

/// What is to be small: the cells that are missing to the largest side, then the distance from the middle.
fn rank(grid: &Grid, square: Square) -> (usize, usize) {
    let across = (2 * square.x + square.side).abs_diff(grid.columns);
    let up = (2 * square.y + square.side).abs_diff(grid.rows);
    (grid.columns - square.side, across * across + up * up)
}

#[cfg(test)]
mod tests {
    use super::*;

    /// The largest square of the marks of rows, as column, row and side.
    fn found(rows: &[&str]) -> Option<(usize, usize, usize)> {
        let square = largest_square(&Grid::of_marks(rows));
        square.map(|square| (square.x, square.y, square.side))
    }

    #[test]
    fn squares() {
        assert_eq!(found(&["#"]), Some((0, 0, 1)));
        assert_eq!(found(&["...", "..."]), None);
        assert_eq!(found(&["#####"]), Some((2, 0, 1)));
        assert_eq!(found(&["######", "######"]), Some((2, 0, 2)));
        assert_eq!(found(&["#..##", "#..##", "#...."]), Some((3, 0, 2)));
        assert_eq!(
            found(&["#.###", "#.###", "#####", "#.#.#"]),
            Some((2, 0, 3))
        );
    }
}
