//! Penalty maps: the penalty of two pieces in given turns at every offset.

use std::cell::OnceCell;

use crate::job::{Job, Piece, MAX_GAP};
use crate::layout::Placement;
use crate::nofit::{BitShape, NoFit};
use crate::shape::{Direction, Shape, Turn};

/// The penalty at every cell of a no-fit box, kept by rows and by columns.
///
/// A byte is wide enough, though a depth may be larger. Of two full boxes, one in the middle of the other, the penalty is the gap
/// and half the sum of their columns or of their rows, whichever is smaller. Box areas of at most 65,536 together make that 199 at
/// most, with 255 by 128 and 128 by 255 pixels and the largest gap. Without a gap every depth is at most 255.
#[derive(Clone)]
pub struct PenaltyMap {
    columns: usize,
    rows: usize,
    by_row: Vec<u8>,
    /// The same cells by columns, made when a column is first asked for.
    by_column: OnceCell<Vec<u8>>,
}

impl PenaltyMap {
    /// Makes the map of a no-fit region.
    pub fn new(no_fit: &NoFit) -> PenaltyMap {
        let (columns, rows) = (no_fit.columns(), no_fit.rows());
        let mut by_row = horizontal_depths(no_fit);
        lower_to_vertical_depths(&mut by_row, columns);
        PenaltyMap {
            columns,
            rows,
            by_row,
            by_column: OnceCell::new(),
        }
    }

    /// One row of the map.
    fn row(&self, row: usize) -> &[u8] {
        &self.by_row[row * self.columns..][..self.columns]
    }

    /// One column of the map.
    fn column(&self, column: usize) -> &[u8] {
        let by_column = self
            .by_column
            .get_or_init(|| transposed(&self.by_row, self.columns));
        &by_column[column * self.rows..][..self.rows]
    }

    /// The line along a direction of the map turned counterclockwise, and whether it runs backward.
    fn turned_line(&self, turn: Turn, direction: Direction, held: usize) -> (&[u8], bool) {
        use Direction::{Horizontal, Vertical};
        match (turn.index(), direction) {
            (0, Horizontal) => (self.row(held), false),
            (1, Horizontal) => (self.column(held), true),
            (2, Horizontal) => (self.row(self.rows - 1 - held), true),
            (_, Horizontal) => (self.column(self.columns - 1 - held), false),
            (0, Vertical) => (self.column(held), false),
            (1, Vertical) => (self.row(self.rows - 1 - held), false),
            (2, Vertical) => (self.column(self.columns - 1 - held), true),
            (_, Vertical) => (self.row(held), true),
        }
    }
}

/// The largest depth: that of two pieces of 255 columns with the largest gap. Every run has its middle at most so far from its ends.
const MAX_DEPTH: usize = 255 + MAX_GAP;

/// The numbers 1 to the largest depth, and down to 1 again: both slopes of the depth over a run. What a byte cannot hold is 255
/// instead, since no penalty is larger.
const SLOPES: [u8; 2 * MAX_DEPTH] = {
    let mut slopes = [u8::MAX; 2 * MAX_DEPTH];
    let mut k = 0;
    while k < 255 {
        slopes[k] = k as u8 + 1;
        slopes[2 * MAX_DEPTH - 1 - k] = k as u8 + 1;
        k += 1;
    }
    slopes
};

/// The horizontal depth at every cell, by rows, as far as a byte holds it; it is 0 exactly outside the no-fit region.
fn horizontal_depths(no_fit: &NoFit) -> Vec<u8> {
    let columns = no_fit.columns();
    let mut depths = vec![0; columns * no_fit.rows()];
    for (row, line) in depths.chunks_exact_mut(columns).enumerate() {
        for (first, count) in no_fit.row_runs(row) {
            let (rising, falling) = line[first..first + count].split_at_mut(count / 2);
            rising.copy_from_slice(&SLOPES[..rising.len()]);
            falling.copy_from_slice(&SLOPES[SLOPES.len() - falling.len()..]);
        }
    }
    depths
}

/// Lowers each horizontal depth to the vertical one where that is smaller.
fn lower_to_vertical_depths(depths: &mut [u8], columns: usize) {
    let mut steps = vec![0; columns];
    for line in depths.chunks_exact_mut(columns) {
        lower_line(line, &mut steps);
    }
    steps.fill(0);
    for line in depths.chunks_exact_mut(columns).rev() {
        lower_line(line, &mut steps);
    }
}

/// Takes the steps to the last free cell of each column on by one line and lowers the line to them.
///
/// A lowered cell stays 0 exactly when it is free, so the same line serves the opposite way too.
fn lower_line(line: &mut [u8], steps: &mut [u8]) {
    for (depth, step) in line.iter_mut().zip(steps) {
        *step = if *depth == 0 {
            0
        } else {
            step.saturating_add(1)
        };
        *depth = (*depth).min(*step);
    }
}

/// The same cells by columns.
fn transposed(by_row: &[u8], columns: usize) -> Vec<u8> {
    let rows = by_row.len() / columns;
    let mut by_column = vec![0; by_row.len()];
    for (column, line) in by_column.chunks_exact_mut(rows).enumerate() {
        let cells = by_row[column..].iter().step_by(columns);
        line.iter_mut()
            .zip(cells)
            .for_each(|(to, from)| *to = *from);
    }
    by_column
}

/// The penalties of a pair at the places of a line where the pieces' boxes come within the gap.
pub struct PairLine<'a> {
    /// The moving piece's smallest coordinate at which they do.
    pub low: isize,
    /// One penalty a coordinate, without gaps.
    pub penalties: &'a [u8],
    /// Whether the first penalty belongs to the largest coordinate instead of the smallest.
    pub backward: bool,
}

impl PairLine<'_> {
    /// The penalty at a coordinate of the moving piece; it is 0 where the boxes lie apart.
    fn at(&self, coordinate: usize) -> u8 {
        let step = coordinate as isize - self.low;
        let last = self.penalties.len() as isize - 1;
        let index = if self.backward { last - step } else { step };
        let penalty = usize::try_from(index)
            .ok()
            .and_then(|index| self.penalties.get(index));
        penalty.copied().unwrap_or(0)
    }
}

/// The penalty maps of all pairs in all turns, each made when it is first asked for.
///
/// Turning both pieces of a pair turns its map as a picture. So the maps are kept for the relative
/// turn alone, with the first piece at turn 0, and are read turned. The first piece is widened by the
/// gap, so that a map has as many lines more on every side.
pub struct PenaltyMaps {
    /// For each piece the number of its shape; equal pieces share one.
    shape_of: Vec<usize>,
    /// Each shape in its four turns.
    shapes: Vec<[BitShape; 4]>,
    /// Each shape in turn 0, widened by the gap; none where there is no gap.
    widened: Vec<BitShape>,
    /// Maps by first shape, second shape, which is no lower in number, and relative turn.
    maps: Vec<OnceCell<Box<PenaltyMap>>>,
    /// Columns and rows of each piece's box in its four turns.
    boxes: Vec<[[usize; 2]; 4]>,
    /// The same with the gap behind the last column and row.
    reaches: Vec<[[usize; 2]; 4]>,
}

impl PenaltyMaps {
    /// Prepares the shapes of a job.
    pub fn new(job: &Job) -> PenaltyMaps {
        let mut distinct: Vec<&Shape> = Vec::new();
        let mut shape_of = Vec::new();
        for piece in &job.pieces {
            let known = distinct.iter().position(|&shape| *shape == piece.shape);
            shape_of.push(known.unwrap_or(distinct.len()));
            if known.is_none() {
                distinct.push(&piece.shape);
            }
        }
        let in_turns = |shape: &&Shape| Turn::ALL.map(|turn| BitShape::new(&shape.turned(turn)));
        let widened = |shape: &&Shape| BitShape::new(&shape.widened(job.gap));
        let to_widen = if job.gap > 0 { &distinct[..] } else { &[] };
        let boxes = |piece: &Piece| Turn::ALL.map(|turn| piece.shape.turned_box(turn));
        let boxes: Vec<[[usize; 2]; 4]> = job.pieces.iter().map(boxes).collect();
        let reach = |sides: &[[usize; 2]; 4]| sides.map(|side| side.map(|side| side + job.gap));
        PenaltyMaps {
            shape_of,
            shapes: distinct.iter().map(in_turns).collect(),
            widened: to_widen.iter().map(widened).collect(),
            maps: vec![OnceCell::new(); 4 * distinct.len() * distinct.len()],
            reaches: boxes.iter().map(reach).collect(),
            boxes,
        }
    }

    /// The extent of a piece's turned box along a direction.
    pub fn extent(&self, piece: usize, turn: Turn, direction: Direction) -> usize {
        self.boxes[piece][turn.index()][direction.index()]
    }

    /// The same and the gap.
    fn reach(&self, piece: usize, turn: Turn, direction: Direction) -> usize {
        self.reaches[piece][turn.index()][direction.index()]
    }

    /// The penalty of two placed pieces.
    pub fn penalty(&self, i: usize, at_i: Placement, j: usize, at_j: Placement) -> u8 {
        self.line(i, at_i.turn, Direction::Horizontal, at_i.y, j, at_j)
            .map_or(0, |line| line.at(at_i.x))
    }

    /// The penalties of a moving piece with another one along a line, if the line comes within the gap of its box.
    pub fn line(
        &self,
        moving: usize,
        turn: Turn,
        direction: Direction,
        held: usize,
        other: usize,
        place: Placement,
    ) -> Option<PairLine<'_>> {
        let cross = direction.crossing();
        let moving_across = self.reach(moving, turn, cross);
        let other_across = self.reach(other, place.turn, cross);
        let other_held = place.along(cross);
        if held >= other_held + other_across || other_held >= held + moving_across {
            return None;
        }
        let moving_first = self.shape_of[moving] < self.shape_of[other];
        // The offset is the second corner minus the first; its cell counts from the least offset.
        let (map, first_turn, cell) = if moving_first {
            let map = self.map(moving, turn, other, place.turn);
            (map, turn, other_held + other_across - 1 - held)
        } else {
            let map = self.map(other, place.turn, moving, turn);
            (map, place.turn, held + moving_across - 1 - other_held)
        };
        let (penalties, against_offset) = map.turned_line(first_turn, direction, cell);
        let moving_along = self.reach(moving, turn, direction);
        Some(PairLine {
            low: place.along(direction) as isize - moving_along as isize + 1,
            penalties,
            // The offset falls while the first piece moves up.
            backward: against_offset != moving_first,
        })
    }

    /// The map of two pieces with the first one at turn 0.
    fn map(&self, first: usize, first_turn: Turn, second: usize, second_turn: Turn) -> &PenaltyMap {
        let (a, b) = (self.shape_of[first], self.shape_of[second]);
        let relative = second_turn.relative_to(first_turn);
        let cell = &self.maps[4 * (a * self.shapes.len() + b) + relative.index()];
        cell.get_or_init(|| {
            let fixed = self.widened.get(a).unwrap_or(&self.shapes[a][0]);
            let opposite_moving = &self.shapes[b][relative.opposite().index()];
            Box::new(PenaltyMap::new(&NoFit::new(fixed, opposite_moving)))
        })
    }
}
