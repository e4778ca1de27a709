//! Placements of pieces, the start layout, the used length and the layout text, written and read.

use std::cmp::Reverse;
use std::fmt::Write;
use std::ops::Range;

use crate::job::{Job, Lines, Piece, Refusal};
use crate::shape::{Direction, Turn};

/// A turn and the corner, which is the bottom-left pixel of the turned box.
#[derive(Clone, Copy, Debug, PartialEq, Eq)]
pub struct Placement {
    pub turn: Turn,
    pub x: usize,
    pub y: usize,
}

impl Placement {
    /// The corner's coordinate along a direction.
    pub fn along(&self, direction: Direction) -> usize {
        match direction {
            Direction::Horizontal => self.x,
            Direction::Vertical => self.y,
        }
    }
}

/// The start layout, given where the locked pieces lie: the free ones are stacked as if they were alone.
pub fn start(job: &Job, locked: impl Fn(usize) -> Placement) -> Vec<Placement> {
    let is_free = |&index: &usize| !job.pieces[index].locked;
    let mut stacked = stack(job, (0..job.pieces.len()).filter(is_free).collect()).into_iter();
    let place = |(index, piece): (usize, &Piece)| {
        if piece.locked {
            locked(index)
        } else {
            stacked.next().expect("every free piece is stacked")
        }
    };
    job.pieces.iter().enumerate().map(place).collect()
}

/// The start layout of a job that comes without placements: the locked pieces lie where a start of all pieces has them.
pub fn own_start(job: &Job) -> Vec<Placement> {
    let of_all = stack(job, (0..job.pieces.len()).collect());
    start(job, |index| of_all[index])
}

/// Where some pieces, given by rising number, lie in stacks by falling length, each filled from the bottom.
fn stack(job: &Job, pieces: Vec<usize>) -> Vec<Placement> {
    let mut order: Vec<usize> = (0..pieces.len()).collect();
    // The sort is stable, so equally long pieces stay in the order of their numbers.
    order.sort_by_key(|&k| Reverse(job.pieces[pieces[k]].shape.columns()));
    let turn = Turn::ALL[0];
    let mut places = vec![Placement { turn, x: 0, y: 0 }; pieces.len()];
    let (mut x, mut y, mut longest) = (0, 0, 0);
    for k in order {
        let shape = &job.pieces[pieces[k]].shape;
        if y + shape.rows() > job.rows {
            x += longest;
            y = 0;
            longest = 0;
        }
        places[k].x = x.min(job.columns - shape.columns());
        places[k].y = y;
        y += shape.rows();
        longest = longest.max(shape.columns());
    }
    places
}

/// The columns that the placed pieces take up, from the first that one of them begins in to the last that one of them ends in.
pub fn used_columns(job: &Job, layout: &[Placement]) -> Range<usize> {
    let taken = |(index, place): (usize, &Placement)| {
        let [columns, _] = job.pieces[index].shape.turned_box(place.turn);
        place.x..place.x + columns
    };
    let taken: Vec<Range<usize>> = layout.iter().enumerate().map(taken).collect();
    let begin = taken.iter().map(|columns| columns.start).min();
    let end = taken.iter().map(|columns| columns.end).max();
    begin.unwrap_or(0)..end.unwrap_or(0)
}

/// The used length: how many these are.
pub fn used_length(job: &Job, layout: &[Placement]) -> usize {
    used_columns(job, layout).len()
}

/// The layout text.
pub fn text(job: &Job, layout: &[Placement]) -> String {
    let mut text = format!("layout,1,{},{},{}\n", job.rows, job.columns, layout.len());
    for (index, place) in layout.iter().enumerate() {
        let degrees = place.turn.degrees();
        writeln!(text, "at,{},{},{},{}", index, degrees, place.x, place.y)
            .expect("writing to a string succeeds");
    }
    text
}

/// Reads the layout text of a job; the first cause of refusal, line by line, is returned.
pub fn read(job: &Job, text: &[u8]) -> Result<Vec<Placement>, Refusal> {
    let mut lines = Lines::new(text);
    let [version, rows, columns, count] = lines.take_numbers(b"layout")?;
    lines.require(version == 1, 1)?;
    let same = [rows, columns, count] == [job.rows, job.columns, job.pieces.len()];
    lines.require(same, 2)?;
    let mut places = Vec::with_capacity(count);
    for index in 0..count {
        places.push(read_place(job, &mut lines, index)?);
    }
    lines.expect_end()?;
    Ok(places)
}

/// Reads the line of one piece's placement.
fn read_place(job: &Job, lines: &mut Lines, index: usize) -> Result<Placement, Refusal> {
    let [number, degrees, x, y] = lines.take_numbers(b"at")?;
    let in_range = number == index && [0, 90, 180, 270].contains(&degrees);
    lines.require(in_range, 2)?;
    let piece = &job.pieces[index];
    let turn = piece.turn_of(degrees).ok_or_else(|| lines.refuse(9))?;
    let place = Placement { turn, x, y };
    lines.require(inside(job, piece, &place), 10)?;
    Ok(place)
}

/// Whether a placed piece's turned box lies in the sheet.
pub fn inside(job: &Job, piece: &Piece, place: &Placement) -> bool {
    let [columns, rows] = piece.shape.turned_box(place.turn);
    place.x + columns <= job.columns && place.y + rows <= job.rows
}
