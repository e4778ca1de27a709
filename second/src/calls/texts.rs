//! The texts: a job read, a layout written and read, the program.

use super::lent::{placements, write_placements};
use super::{require, Cause, Lent, Refusal, TableEntry};
use crate::{job, layout};

/// No output of the program is longer.
pub const OUTPUT: usize = 4_096;

/// Reads a job text into a table and a pixel store; gives W, L, n and the gap.
pub fn read_job(
    text: &[u8],
    table: &mut [TableEntry],
    pixels: &mut [u8],
) -> Result<[usize; 4], Refusal> {
    let job = job::read(text)?;
    let shapes = || job.pieces.iter().map(|piece| &piece.shape);
    let total: usize = shapes().map(|shape| shape.columns() * shape.rows()).sum();
    require(table.len() >= job.pieces.len(), Cause::BufferShort)?;
    require(pixels.len() >= total, Cause::BufferShort)?;
    for (entry, piece) in table.iter_mut().zip(&job.pieces) {
        let shape = &piece.shape;
        let lock = if piece.locked { job::LOCKED } else { job::FREE };
        let numbers = [shape.columns(), shape.rows(), piece.turn_sum(), lock];
        *entry = numbers.map(|number| number as u8);
    }
    for (byte, pixel) in pixels
        .iter_mut()
        .zip(shapes().flat_map(|shape| shape.cells()))
    {
        *byte = u8::from(pixel);
    }
    Ok([job.rows, job.columns, job.pieces.len(), job.gap])
}

/// Writes a layout's text into a buffer; gives its length.
pub fn write_layout(lent: &Lent, layout: &[[u16; 3]], text: &mut [u8]) -> Result<usize, Refusal> {
    let job = lent.job()?;
    require(layout.len() == lent.count, Cause::LayoutLength)?;
    let places = placements(&job, layout)?;
    let written = layout::text(&job, &places);
    let front = text.get_mut(..written.len()).ok_or(Cause::BufferShort)?;
    front.copy_from_slice(written.as_bytes());
    Ok(written.len())
}

/// Reads a layout text of a job into a layout buffer.
pub fn read_layout(lent: &Lent, text: &[u8], layout: &mut [[u16; 3]]) -> Result<(), Refusal> {
    let job = lent.job()?;
    let places = layout::read(&job, text)?;
    require(layout.len() == places.len(), Cause::LayoutLength)?;
    write_placements(layout, &places);
    Ok(())
}

/// The program's output for an input; gives its length.
pub fn program(input: &[u8], output: &mut [u8]) -> Result<usize, Refusal> {
    let printed = crate::run(input);
    let front = output.get_mut(..printed.len()).ok_or(Cause::BufferShort)?;
    front.copy_from_slice(printed.as_bytes());
    Ok(printed.len())
}
