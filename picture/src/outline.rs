//! Outlines of pixel sets.

use crate::grid::Grid;

/// A point where cells meet; (x, y) is the bottom-left one of the cell (x, y).
pub type Point = (usize, usize);

/// The outlines of a set as closed lines, each given by its corners; a hole has a line of its own.
pub fn outlines(grid: &Grid) -> Vec<Vec<Point>> {
    let mut sides = Sides::new(grid);
    let points = (0..=grid.rows).flat_map(|y| (0..=grid.columns).map(move |x| (x, y)));
    // The first point of a line is its lowest and leftmost one, where the line always turns.
    let lines = points.map(|point| sides.take_line(point));
    lines.filter(|line| !line.is_empty()).collect()
}

/// A step along a side: 0 right, 1 up, 2 left, 3 down.
type Heading = usize;

/// The sides between a cell of a set and one outside it, each with the set on its left.
struct Sides {
    columns: usize,
    /// For each point the headings of the sides that leave it.
    leaving: Vec<[bool; 4]>,
}

impl Sides {
    /// All sides of a set.
    fn new(grid: &Grid) -> Sides {
        let mut sides = Sides {
            columns: grid.columns,
            leaving: vec![[false; 4]; (grid.columns + 1) * (grid.rows + 1)],
        };
        for (x, y) in grid.cells() {
            // A coordinate below 0 wraps to one beyond the box, where the set has no cell.
            *sides.side((x, y), 0) = !grid.has(x, y.wrapping_sub(1));
            *sides.side((x + 1, y), 1) = !grid.has(x + 1, y);
            *sides.side((x + 1, y + 1), 2) = !grid.has(x, y + 1);
            *sides.side((x, y + 1), 3) = !grid.has(x.wrapping_sub(1), y);
        }
        sides
    }

    /// Whether a side leaves a point.
    fn side(&mut self, (x, y): Point, heading: Heading) -> &mut bool {
        &mut self.leaving[y * (self.columns + 1) + x][heading]
    }

    /// Takes the line that begins at a point; it has no corners where no side leaves the point.
    fn take_line(&mut self, start: Point) -> Vec<Point> {
        let mut corners = Vec::new();
        let (mut at, mut heading) = (start, None);
        while let Some(next) = self.onward(at, heading) {
            if heading != Some(next) {
                corners.push(at);
            }
            *self.side(at, next) = false;
            at = step(at, next);
            heading = Some(next);
        }
        corners
    }

    /// The heading in which a line goes on.
    ///
    /// Where two cells meet by their corners alone, two sides leave; the left one stays at its cell.
    fn onward(&mut self, at: Point, heading: Option<Heading>) -> Option<Heading> {
        let from = heading.unwrap_or(0);
        let choices = [1, 0, 3, 2].map(|turn| (from + turn) % 4);
        choices.into_iter().find(|&next| *self.side(at, next))
    }
}

/// The point one step further.
fn step((x, y): Point, heading: Heading) -> Point {
    match heading {
        0 => (x + 1, y),
        1 => (x, y + 1),
        2 => (x - 1, y),
        _ => (x, y - 1),
    }
}

#[cfg(test)]
mod tests {
    use super::*;

    #[test]
    fn rectangle_has_four_corners() {
        let corners = vec![(0, 0), (3, 0), (3, 2), (0, 2)];
        assert_eq!(outlines(&Grid::of_marks(&["###", "###"])), [corners]);
    }

    #[test]
    fn hole_has_its_own_line_the_other_way_round() {
        let lines = outlines(&Grid::of_marks(&["###", "#.#", "###"]));
        let outer = vec![(0, 0), (3, 0), (3, 3), (0, 3)];
        let inner = vec![(1, 1), (1, 2), (2, 2), (2, 1)];
        assert_eq!(lines, [outer, inner]);
    }

    #[test]
    fn cells_that_meet_by_corners_stay_apart() {
        for rows in [["#.", ".#"], [".#", "#."]] {
            let lines = outlines(&Grid::of_marks(&rows));
            assert!(lines.len() == 2 && lines.iter().all(|line| line.len() == 4));
        }
    }

    #[test]
    fn lines_enclose_as_many_cells_as_the_set_has() {
        // Scattered cells by a fixed rule, so that many meet by corners and enclose holes.
        for rule in 2..40 {
            let dust = Grid::new(17, 13, |x, y| (x * x * 7 + y * 31 + x * y * rule) % 5 < 3);
            let area: isize = outlines(&dust).iter().map(|line| doubled_area(line)).sum();
            assert_eq!(area, 2 * dust.count() as isize);
        }
    }

    /// Twice the enclosed area, negative for a line that runs clockwise.
    fn doubled_area(line: &[Point]) -> isize {
        let next = line.iter().cycle().skip(1);
        let cross = |(a, b): (&Point, &Point)| (a.0 * b.1) as isize - (b.0 * a.1) as isize;
        line.iter().zip(next).map(cross).sum()
    }
}
