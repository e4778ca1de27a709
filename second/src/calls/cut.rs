//! The cut list: all lines of a layout, and single steps.

use super::layouts::checked;
use super::{require, Cause, Lent, Refusal};
use crate::cut::{self, CutLine, Step};

/// The largest pitch, in sixty-fourths of a millimetre.
const MAX_PITCH: u32 = 4_096;

/// Cause 2 of a pitch.
fn require_pitch(pitch: u32) -> Result<(), Refusal> {
    require((1..=MAX_PITCH).contains(&pitch), Cause::Pitch)
}

/// A line as an entry of a buffer: 0 horizontal or 1 vertical, pixel line, first, last.
fn entry(line: &CutLine) -> [u16; 4] {
    [usize::from(line.vertical), line.line, line.first, line.last].map(|number| number as u16)
}

/// An entry of a buffer as a line; a direction other than 0 is vertical.
fn line(&[direction, line, first, last]: &[u16; 4]) -> CutLine {
    let [line, first, last] = [line, first, last].map(usize::from);
    CutLine {
        vertical: direction != 0,
        line,
        first,
        last,
    }
}

/// Fills the lines of a layout; gives how many there are.
pub fn cut_lines(
    lent: &Lent,
    layout: &[[u16; 3]],
    lines: &mut [[u16; 4]],
) -> Result<usize, Refusal> {
    let (job, places) = checked(lent, layout, || Ok(()))?;
    let found = cut::lines(&job, &places);
    require(found.len() <= lines.len(), Cause::BufferShort)?;
    for (place, line) in lines.iter_mut().zip(&found) {
        *place = entry(line);
    }
    Ok(found.len())
}

/// A step of the cut list of a layout.
pub fn cut_step(
    lent: &Lent,
    layout: &[[u16; 3]],
    pitch: u32,
    number: u64,
) -> Result<Step, Refusal> {
    let (job, places) = checked(lent, layout, || require_pitch(pitch))?;
    Ok(cut::step(&cut::lines(&job, &places), pitch, number))
}

/// A step of lines that are lent.
pub fn line_step(lines: &[[u16; 4]], pitch: u32, number: u64) -> Result<Step, Refusal> {
    require_pitch(pitch)?;
    let lines: Vec<CutLine> = lines.iter().map(line).collect();
    Ok(cut::step(&lines, pitch, number))
}
