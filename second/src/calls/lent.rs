//! A job in a caller's buffers: cause 8 of every call that is lent one, and the causes of a layout beside it.

use super::{require, Cause, Refusal};
use crate::job::{Job, Piece, FREE, LOCKED, MAX_AREA, MAX_GAP};
use crate::layout::{inside, Placement};
use crate::shape::Shape;

/// A piece's entry of the table: {l, w, o, lock}.
pub type TableEntry = [u8; 4];

/// W, L, n, the gap, the piece table and the pixel bytes.
#[derive(Clone, Copy, Debug)]
pub struct Lent<'a> {
    pub rows: usize,
    pub columns: usize,
    pub count: usize,
    pub gap: usize,
    pub table: &'a [TableEntry],
    pub pixels: &'a [u8],
}

impl Lent<'_> {
    /// The job, if reading gives it from some text.
    pub fn job(&self) -> Result<Job, Refusal> {
        let sheet = (1..=512).contains(&self.rows) && (1..=4096).contains(&self.columns);
        require(
            sheet && self.rows * self.columns <= MAX_AREA,
            Cause::LentSheet,
        )?;
        require((1..=64).contains(&self.count), Cause::LentCount)?;
        require(self.gap <= MAX_GAP, Cause::LentGap)?;
        let table = self.table.get(..self.count).ok_or(Cause::LentTable)?;
        for &[columns, rows, turns, lock] in table {
            let fits = |side: u8, sheet: usize| (1..=sheet).contains(&usize::from(side));
            require(
                fits(columns, self.columns) && fits(rows, self.rows),
                Cause::LentBox,
            )?;
            require(turns % 2 == 1 && turns <= 15, Cause::LentTurns)?;
            let known = [FREE, LOCKED].contains(&usize::from(lock));
            require(known, Cause::LentLock)?;
        }
        let area = |&[columns, rows, ..]: &TableEntry| usize::from(columns) * usize::from(rows);
        let total: usize = table.iter().map(area).sum();
        require(total <= MAX_AREA, Cause::LentAreas)?;
        let pixels = self.pixels.get(..total).ok_or(Cause::LentPixels)?;
        require(pixels.iter().all(|&byte| byte <= 1), Cause::LentPixel)?;

        let mut rest = pixels;
        let mut pieces = Vec::with_capacity(table.len());
        for entry in table {
            let (own, others) = rest.split_at(area(entry));
            rest = others;
            let bits = own.iter().map(|&byte| byte == 1).collect();
            let shape = Shape::new(usize::from(entry[0]), bits);
            require(shape.is_tight(), Cause::LentLoose)?;
            let [_, _, turns, lock] = entry.map(usize::from);
            pieces.push(Piece::new(shape, turns, lock == LOCKED));
        }
        Ok(Job {
            rows: self.rows,
            columns: self.columns,
            gap: self.gap,
            pieces,
        })
    }
}

/// The placements of a layout of n entries: causes 9 and 10, each over the whole layout before the next.
pub fn placements(job: &Job, layout: &[[u16; 3]]) -> Result<Vec<Placement>, Refusal> {
    let mut places = Vec::with_capacity(layout.len());
    for (piece, &[degrees, x, y]) in job.pieces.iter().zip(layout) {
        places.push(Placement {
            turn: piece
                .turn_of(usize::from(degrees))
                .ok_or(Cause::LayoutTurn)?,
            x: usize::from(x),
            y: usize::from(y),
        });
    }
    let mut placed = job.pieces.iter().zip(&places);
    require(
        placed.all(|(piece, place)| inside(job, piece, place)),
        Cause::Outside,
    )?;
    Ok(places)
}

/// Writes placements into a layout buffer of the same length.
pub fn write_placements(layout: &mut [[u16; 3]], places: &[Placement]) {
    for (entry, place) in layout.iter_mut().zip(places) {
        *entry = [place.turn.degrees(), place.x, place.y].map(|number| number as u16);
    }
}
