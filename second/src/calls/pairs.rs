//! Two pieces: no-fit lines, conflict, depths and penalty.

use super::lent::placements;
use super::strips::entries;
use super::{require, Cause, Lent, Refusal};
use crate::job::Job;
use crate::nofit::{BitShape, NoFit};
use crate::shape::{Direction, Shape, Turn};

/// A piece with a turn and its lent strips.
#[derive(Clone, Copy)]
pub struct Stretch<'a> {
    pub piece: usize,
    pub turn: u16,
    pub strips: &'a [[u8; 3]],
}

/// The no-fit region of two turned shapes that are to keep a gap, the first one fixed. Widened by the gap, it has its corner a gap
/// lower and further left, so that an offset is as much larger.
fn region(fixed: &Shape, moving: &Shape, gap: usize) -> NoFit {
    let opposite = moving.turned(Turn::ALL[2]);
    NoFit::new(
        &BitShape::new(&fixed.widened(gap)),
        &BitShape::new(&opposite),
    )
}

/// Fills the no-fit row of two pieces at a row offset, or the no-fit column at a column offset; gives how many runs there are.
pub fn no_fit_line(
    lent: &Lent,
    pair: [Stretch; 2],
    vertical: bool,
    offset: i32,
    runs: &mut [[i32; 2]],
) -> Result<usize, Refusal> {
    let job = lent.job()?;
    let mut shapes = Vec::new();
    for Stretch { piece, turn, .. } in pair {
        let piece = job.pieces.get(piece).ok_or(Cause::NoPiece)?;
        let turn = piece.turn_of(usize::from(turn)).ok_or(Cause::Turn)?;
        shapes.push(piece.shape.turned(turn));
    }
    for (shape, stretch) in shapes.iter().zip(pair) {
        require(entries(shape, vertical) == stretch.strips, Cause::Stretch)?;
    }
    // The no-fit column of two pieces is the no-fit row of both transposed.
    if vertical {
        shapes = shapes.iter().map(Shape::transposed).collect();
    }
    let found = row_runs(&shapes[0], &shapes[1], job.gap, offset);
    let front = runs.get_mut(..found.len()).ok_or(Cause::BufferShort)?;
    front.copy_from_slice(&found);
    Ok(found.len())
}

/// The no-fit row of two shapes at a row offset.
fn row_runs(fixed: &Shape, moving: &Shape, gap: usize, offset: i32) -> Vec<[i32; 2]> {
    let region = region(fixed, moving, gap);
    let row = i64::from(offset) + (gap + moving.rows()) as i64 - 1;
    if !(0..region.rows() as i64).contains(&row) {
        return Vec::new();
    }
    let least = (gap + moving.columns()) as i32 - 1;
    let run = |(first, count): (usize, usize)| [first as i32 - least, count as i32];
    region.row_runs(row as usize).map(run).collect()
}

/// The depths of two pieces of a layout, horizontal first.
fn depths(lent: &Lent, layout: &[[u16; 3]], [i, k]: [usize; 2]) -> Result<[usize; 2], Refusal> {
    let job = lent.job()?;
    require(layout.len() == lent.count, Cause::LayoutLength)?;
    require(i < lent.count && k < lent.count, Cause::NoPiece)?;
    require(i != k, Cause::SamePiece)?;
    let places = placements(&job, layout)?;
    let turned = |job: &Job, piece: usize| job.pieces[piece].shape.turned(places[piece].turn);
    let (fixed, moving) = (turned(&job, i), turned(&job, k));
    let region = region(&fixed, &moving, job.gap);
    // The cell of the offset, from the least offset at which the boxes come within the gap; outside the region's box there is no conflict.
    let column = (places[k].x + job.gap + moving.columns() - 1).checked_sub(places[i].x);
    let row = (places[k].y + job.gap + moving.rows() - 1).checked_sub(places[i].y);
    Ok(match (column, row) {
        (Some(column), Some(row)) if column < region.columns() && row < region.rows() => {
            Direction::ALL.map(|direction| region.depth(direction, column, row))
        }
        _ => [0, 0],
    })
}

/// Whether two pieces of a layout conflict; without a gap that is sharing a pixel, which the call is named after.
pub fn shares_pixel(lent: &Lent, layout: &[[u16; 3]], i: usize, k: usize) -> Result<bool, Refusal> {
    // A shift by nothing parts exactly the pieces that do not conflict.
    Ok(depths(lent, layout, [i, k])?[0] > 0)
}

/// The depth of two pieces of a layout along a direction.
pub fn depth(
    lent: &Lent,
    layout: &[[u16; 3]],
    i: usize,
    k: usize,
    vertical: bool,
) -> Result<usize, Refusal> {
    Ok(depths(lent, layout, [i, k])?[usize::from(vertical)])
}

/// The penalty of two pieces of a layout.
pub fn penalty(lent: &Lent, layout: &[[u16; 3]], i: usize, k: usize) -> Result<usize, Refusal> {
    let [horizontal, vertical] = depths(lent, layout, [i, k])?;
    Ok(horizontal.min(vertical))
}
