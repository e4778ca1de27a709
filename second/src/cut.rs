//! The cut list of a layout: the sides of its pieces, joined into straight lines, and the steps of a knife along them.

use std::collections::BTreeSet;

use crate::job::Job;
use crate::layout::Placement;

/// A straight line to cut, in pixel lines: at `line` across its direction, from `first` to `last` along it.
#[derive(Clone, Copy, Debug, PartialEq, Eq)]
pub struct CutLine {
    pub vertical: bool,
    pub line: usize,
    pub first: usize,
    pub last: usize,
}

/// What the knife does next; a point is x and y in millimetres.
#[derive(Clone, Copy, Debug, PartialEq)]
pub enum Step {
    Lift(f64, f64),
    Cut(f64, f64),
    Done,
}

/// A side: vertical or not, the pixel line that it lies on, and where it begins along that line. Their order is that of the list.
type Side = (bool, usize, usize);

/// The sides of all pieces, a common one once.
pub fn sides(job: &Job, layout: &[Placement]) -> BTreeSet<Side> {
    let mut sides = BTreeSet::new();
    for (piece, place) in job.pieces.iter().zip(layout) {
        let shape = piece.shape.turned(place.turn);
        // Left of column 0 and below row 0 the number wraps round and is as far outside the box as can be.
        let has = |x: usize, y: usize| x < shape.columns() && y < shape.rows() && shape.has(x, y);
        for (x, y) in shape.pixels() {
            let (column, row) = (place.x + x, place.y + y);
            let beside = [
                (has(x.wrapping_sub(1), y), (true, column, row)),
                (has(x + 1, y), (true, column + 1, row)),
                (has(x, y.wrapping_sub(1)), (false, row, column)),
                (has(x, y + 1), (false, row + 1, column)),
            ];
            let open = beside.into_iter().filter(|(taken, _)| !taken);
            sides.extend(open.map(|(_, side)| side));
        }
    }
    sides
}

/// The lines of a layout: horizontals by y, then x; verticals by x, then y.
pub fn lines(job: &Job, layout: &[Placement]) -> Vec<CutLine> {
    let mut lines: Vec<CutLine> = Vec::new();
    for (vertical, line, at) in sides(job, layout) {
        match lines.last_mut() {
            Some(before) if (before.vertical, before.line, before.last) == (vertical, line, at) => {
                before.last += 1;
            }
            _ => lines.push(CutLine {
                vertical,
                line,
                first: at,
                last: at + 1,
            }),
        }
    }
    lines
}

/// The step of a number, from 0: to the smaller end of a line, then along it.
pub fn step(lines: &[CutLine], pitch: u32, number: u64) -> Step {
    let line = usize::try_from(number / 2).ok().and_then(|k| lines.get(k));
    let Some(line) = line else {
        return Step::Done;
    };
    let cutting = number % 2 == 1;
    let along = if cutting { line.last } else { line.first };
    let (x, y) = if line.vertical {
        (line.line, along)
    } else {
        (along, line.line)
    };
    let [x, y] = [x, y].map(|at| at as f64 * f64::from(pitch) / 64.0);
    if cutting {
        Step::Cut(x, y)
    } else {
        Step::Lift(x, y)
    }
}
