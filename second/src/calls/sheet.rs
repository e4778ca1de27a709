//! The sheet of cover counts: fresh, lay and withdraw.

use super::{require, Cause, Lent, Refusal};
use crate::job::{Job, Piece};
use crate::layout::{inside, Placement};

/// The entries of a sheet record.
pub const RECORD: usize = 64;

/// What the record says of a piece: {laid, turn, x, y}, all 0 where it is not laid.
pub type RecordEntry = [u16; 4];

/// The record and the counts that a caller lends.
pub struct Counts<'a> {
    pub record: &'a mut [RecordEntry; RECORD],
    pub counts: &'a mut [u8],
}

/// A placement in an allowed turn, inside or not.
fn placement(piece: &Piece, [degrees, x, y]: [u16; 3]) -> Option<Placement> {
    let turn = piece.turn_of(usize::from(degrees))?;
    let (x, y) = (usize::from(x), usize::from(y));
    Some(Placement { turn, x, y })
}

/// The numbers of the sheet pixels that a placed piece covers.
fn covered(job: &Job, piece: &Piece, place: &Placement) -> Vec<usize> {
    let shape = piece.shape.turned(place.turn);
    let number = |(x, y)| (place.y + y) * job.columns + place.x + x;
    shape.pixels().map(number).collect()
}

impl Counts<'_> {
    /// Causes 8 of the job, 7 and 8 of record and counts.
    fn checked(&self, lent: &Lent) -> Result<Job, Refusal> {
        let job = lent.job()?;
        require(
            self.counts.len() == job.rows * job.columns,
            Cause::CountsLength,
        )?;
        let mut expected = vec![0; self.counts.len()];
        for (number, &[laid, turn, x, y]) in self.record.iter().enumerate() {
            if [laid, turn, x, y] == [0; 4] {
                continue;
            }
            let piece = job.pieces.get(number).ok_or(Cause::Record)?;
            let place = placement(piece, [turn, x, y]).ok_or(Cause::Record)?;
            require(laid == 1 && inside(&job, piece, &place), Cause::Record)?;
            for pixel in covered(&job, piece, &place) {
                expected[pixel] += 1;
            }
        }
        require(*self.counts == expected, Cause::Counts)?;
        Ok(job)
    }
}

/// Makes a fresh sheet: nothing laid, all counts 0.
pub fn fresh(lent: &Lent, sheet: Counts) -> Result<(), Refusal> {
    let job = lent.job()?;
    require(
        sheet.counts.len() == job.rows * job.columns,
        Cause::CountsLength,
    )?;
    *sheet.record = [[0; 4]; RECORD];
    sheet.counts.fill(0);
    Ok(())
}

/// Lays a piece at {turn, x, y}.
pub fn lay(lent: &Lent, sheet: Counts, number: usize, at: [u16; 3]) -> Result<(), Refusal> {
    let job = sheet.checked(lent)?;
    let piece = job.pieces.get(number).ok_or(Cause::NoPiece)?;
    let place = placement(piece, at).ok_or(Cause::Turn)?;
    require(sheet.record[number][0] == 0, Cause::Laid)?;
    require(inside(&job, piece, &place), Cause::Outside)?;
    for pixel in covered(&job, piece, &place) {
        sheet.counts[pixel] += 1;
    }
    let [turn, x, y] = at;
    sheet.record[number] = [1, turn, x, y];
    Ok(())
}

/// Withdraws a laid piece that is free.
pub fn withdraw(lent: &Lent, sheet: Counts, number: usize) -> Result<(), Refusal> {
    let job = sheet.checked(lent)?;
    let piece = job.pieces.get(number).ok_or(Cause::NoPiece)?;
    let [laid, turn, x, y] = sheet.record[number];
    let place = placement(piece, [turn, x, y]).filter(|_| laid == 1);
    let place = place.ok_or(Cause::NotLaid)?;
    require(!piece.locked, Cause::Locked)?;
    for pixel in covered(&job, piece, &place) {
        sheet.counts[pixel] -= 1;
    }
    sheet.record[number] = [0; 4];
    Ok(())
}
