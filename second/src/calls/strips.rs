//! The stores of a job's strips, the stretch of one piece, and pixels rebuilt from strips.

use std::ops::Range;

use super::{require, Cause, Lent, Refusal};
use crate::job::Job;
use crate::shape::{Shape, Turn};

/// The stores and starts that a caller lends to be read: those of the rows, then those of the columns.
pub type Stores<'a> = [(&'a [[u8; 3]], &'a [u32]); 2];

/// The stores and starts that a caller lends to be filled.
pub type StoresMut<'a> = [(&'a mut [[u8; 3]], &'a mut [u32]); 2];

/// The row strips of a shape, or its column strips, as they stand in a store.
pub fn entries(shape: &Shape, vertical: bool) -> Vec<[u8; 3]> {
    let strips = if vertical {
        shape.transposed().row_strips()
    } else {
        shape.row_strips()
    };
    let entry = |strip| {
        let crate::shape::Strip { y, first, count } = strip;
        [y, first, count].map(|number| number as u8)
    };
    strips.into_iter().map(entry).collect()
}

/// The strips of all pieces, piece after piece, and the n + 1 starts.
fn store(job: &Job, turns: &[Turn], vertical: bool) -> (Vec<[u8; 3]>, Vec<u32>) {
    let (mut strips, mut starts) = (Vec::new(), vec![0]);
    for (piece, &turn) in job.pieces.iter().zip(turns) {
        strips.extend(entries(&piece.shape.turned(turn), vertical));
        starts.push(strips.len() as u32);
    }
    (strips, starts)
}

/// A list of n allowed turns.
fn read_turns(job: &Job, turns: &[u16]) -> Result<Vec<Turn>, Refusal> {
    require(turns.len() == job.pieces.len(), Cause::TurnsLength)?;
    let pieces = job.pieces.iter().zip(turns);
    let turned = pieces.map(|(piece, &degrees)| piece.turn_of(usize::from(degrees)));
    turned.map(|turn| turn.ok_or(Cause::Turn.into())).collect()
}

/// Fills the stores of all pieces' strips in the given turns, and their starts.
pub fn strips(lent: &Lent, turns: &[u16], stores: StoresMut) -> Result<(), Refusal> {
    let job = lent.job()?;
    let turns = read_turns(&job, turns)?;
    let made = [false, true].map(|vertical| store(&job, &turns, vertical));
    for ((strips, starts), (to_strips, to_starts)) in made.iter().zip(&stores) {
        require(to_strips.len() >= strips.len(), Cause::BufferShort)?;
        require(to_starts.len() >= starts.len(), Cause::BufferShort)?;
    }
    for ((strips, starts), (to_strips, to_starts)) in made.iter().zip(stores) {
        to_strips[..strips.len()].copy_from_slice(strips);
        to_starts[..starts.len()].copy_from_slice(starts);
    }
    Ok(())
}

/// Where the strips of a piece stand in the row store, or in the column store.
pub fn stretch(
    lent: &Lent,
    turns: &[u16],
    stores: Stores,
    piece: usize,
    vertical: bool,
) -> Result<Range<usize>, Refusal> {
    let job = lent.job()?;
    require(piece < lent.count, Cause::NoPiece)?;
    let turns = read_turns(&job, turns)?;
    let made = [false, true].map(|vertical| store(&job, &turns, vertical));
    for ((strips, starts), (lent_strips, lent_starts)) in made.iter().zip(stores) {
        require(lent_strips.starts_with(strips), Cause::Store)?;
        require(lent_starts.starts_with(starts), Cause::Store)?;
    }
    let (_, starts) = &made[usize::from(vertical)];
    Ok(starts[piece] as usize..starts[piece + 1] as usize)
}

/// Fills the pixels of the one piece of a box that has just these row strips, or column strips.
pub fn rebuild(
    columns: u16,
    rows: u16,
    vertical: bool,
    strips: &[[u8; 3]],
    pixels: &mut [u8],
) -> Result<(), Refusal> {
    let in_range = |side| (1..=255).contains(&side);
    require(in_range(columns) && in_range(rows), Cause::Side)?;
    // Column strips are the row strips of the transposed piece.
    let (along, across) = if vertical {
        (usize::from(rows), usize::from(columns))
    } else {
        (usize::from(columns), usize::from(rows))
    };
    let mut painted = vec![false; along * across];
    for strip in strips {
        let [line, first, count] = strip.map(usize::from);
        require(line < across && first + count <= along, Cause::Strips)?;
        painted[line * along + first..][..count].fill(true);
    }
    let shape = Shape::new(along, painted);
    require(
        shape.is_tight() && entries(&shape, false) == strips,
        Cause::Strips,
    )?;
    let front = pixels.get_mut(..along * across).ok_or(Cause::BufferShort)?;
    let piece = if vertical { shape.transposed() } else { shape };
    for (byte, pixel) in front.iter_mut().zip(piece.cells()) {
        *byte = u8::from(pixel);
    }
    Ok(())
}
