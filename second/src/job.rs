//! Reading of the job text.

use crate::shape::{Shape, Turn};

/// Largest number of sheet pixels, and largest total of box areas.
pub const MAX_AREA: usize = 65_536;

/// Largest gap that a job may ask for.
pub const MAX_GAP: usize = 8;

/// What the lock of a piece says: it is free, or locked.
pub const FREE: usize = 0;
pub const LOCKED: usize = 1;

/// A refused text: the number of the cause and the line, from 1.
#[derive(Clone, Copy, Debug, PartialEq, Eq)]
pub struct Refusal {
    pub number: u8,
    pub line: usize,
}

/// A piece: its pixels in turn 0, the turns that it may take, and whether it is locked: under the knife, so that no run shifts it.
#[derive(Clone, Debug)]
pub struct Piece {
    pub shape: Shape,
    turn_sum: usize,
    pub locked: bool,
}

impl Piece {
    /// A piece whose allowed turns are given as the sum of 1, 2, 4, 8.
    pub fn new(shape: Shape, turn_sum: usize, locked: bool) -> Piece {
        Piece {
            shape,
            turn_sum,
            locked,
        }
    }

    /// The allowed turns as the sum of 1, 2, 4, 8.
    pub fn turn_sum(&self) -> usize {
        self.turn_sum
    }

    /// The allowed turns in rising order.
    pub fn turns(&self) -> impl Iterator<Item = Turn> + '_ {
        let allowed = |turn: &Turn| self.turn_sum & (1 << turn.index()) != 0;
        Turn::ALL.into_iter().filter(allowed)
    }

    /// The turn of so many degrees, if the piece may take it.
    pub fn turn_of(&self, degrees: usize) -> Option<Turn> {
        self.turns().find(|turn| turn.degrees() == degrees)
    }
}

/// A sheet of `rows` by `columns` pixels and the pieces to lay on it.
///
/// Two pieces conflict when a pixel of one is at most `gap` columns and at most `gap` rows from a pixel of the other.
#[derive(Clone, Debug)]
pub struct Job {
    pub rows: usize,
    pub columns: usize,
    pub gap: usize,
    pub pieces: Vec<Piece>,
}

impl Job {
    /// The number of unordered pairs of pieces.
    pub fn pair_count(&self) -> usize {
        self.pieces.len() * (self.pieces.len() - 1) / 2
    }
}

/// Reads a whole job text; the first cause of refusal, line by line, is returned.
pub fn read(text: &[u8]) -> Result<Job, Refusal> {
    let mut lines = Lines::new(text);
    let JobHeader {
        version,
        rows,
        columns,
        count,
        gap,
    } = read_job_line(&mut lines)?;
    let mut job = Job {
        rows,
        columns,
        gap,
        pieces: Vec::with_capacity(count),
    };
    let mut area = 0;
    for index in 0..count {
        let header = read_piece_line(&mut lines, version, &job, index, &mut area)?;
        job.pieces.push(read_rows(&mut lines, header)?);
    }
    lines.expect_end()?;
    Ok(job)
}

/// The part of the text that is not yet read, and the number of the line last taken.
pub(crate) struct Lines<'a> {
    rest: &'a [u8],
    number: usize,
}

impl<'a> Lines<'a> {
    /// Begins with a whole text.
    pub(crate) fn new(text: &'a [u8]) -> Lines<'a> {
        Lines {
            rest: text,
            number: 0,
        }
    }

    /// Takes the next line without its line feed; a line that has none is of wrong form.
    fn take(&mut self) -> Result<&'a [u8], Refusal> {
        self.number += 1;
        let Some(end) = self.rest.iter().position(|&byte| byte == b'\n') else {
            return Err(self.refuse(1));
        };
        let line = &self.rest[..end];
        self.rest = &self.rest[end + 1..];
        Ok(line)
    }

    /// A refusal of the line last taken.
    pub(crate) fn refuse(&self, number: u8) -> Refusal {
        Refusal {
            number,
            line: self.number,
        }
    }

    /// Refuses the line last taken unless the condition holds.
    pub(crate) fn require(&self, condition: bool, number: u8) -> Result<(), Refusal> {
        if condition {
            Ok(())
        } else {
            Err(self.refuse(number))
        }
    }

    /// Takes a line of a word and so many number fields.
    pub(crate) fn take_numbers<const COUNT: usize>(
        &mut self,
        word: &[u8],
    ) -> Result<[usize; COUNT], Refusal> {
        let line = self.take()?;
        numbers(line, word).ok_or_else(|| self.refuse(1))
    }

    /// Refuses anything that follows the last line.
    pub(crate) fn expect_end(&mut self) -> Result<(), Refusal> {
        if self.rest.is_empty() {
            return Ok(());
        }
        self.number += 1;
        Err(self.refuse(1))
    }
}

/// The numbers of a line that begins with the word and has just so many fields behind it, if the line is of that form.
fn numbers<const COUNT: usize>(line: &[u8], word: &[u8]) -> Option<[usize; COUNT]> {
    let mut fields = line.split(|&byte| byte == b',');
    if fields.next() != Some(word) {
        return None;
    }
    let mut values = [0; COUNT];
    for value in &mut values {
        *value = number(fields.next()?)?;
    }
    fields.next().is_none().then_some(values)
}

/// The value of a field of 1 to 5 digits with a leading zero only in 0 itself.
fn number(field: &[u8]) -> Option<usize> {
    let well_formed = (1..=5).contains(&field.len())
        && field.iter().all(u8::is_ascii_digit)
        && (field.len() == 1 || field[0] != b'0');
    let append_digit = |value: usize, digit: &u8| 10 * value + usize::from(digit - b'0');
    well_formed.then(|| field.iter().fold(0, append_digit))
}

/// What the first line says of the job.
struct JobHeader {
    version: usize,
    rows: usize,
    columns: usize,
    count: usize,
    gap: usize,
}

/// The first line of any version, if it has that version's number of fields: version 1 has no gap, versions 2 and 3 have one.
fn job_header(line: &[u8]) -> Option<JobHeader> {
    let [version, rows, columns, count, gap] = match numbers(line, b"job") {
        Some([1, rows, columns, count]) => [1, rows, columns, count, 0],
        _ => numbers(line, b"job").filter(|fields: &[usize; 5]| [2, 3].contains(&fields[0]))?,
    };
    Some(JobHeader {
        version,
        rows,
        columns,
        count,
        gap,
    })
}

/// Reads the first line.
fn read_job_line(lines: &mut Lines) -> Result<JobHeader, Refusal> {
    let header = job_header(lines.take()?).ok_or_else(|| lines.refuse(1))?;
    let in_range = (1..=512).contains(&header.rows)
        && (1..=4096).contains(&header.columns)
        && (1..=64).contains(&header.count)
        && header.gap <= MAX_GAP;
    lines.require(in_range, 2)?;
    lines.require(header.rows * header.columns <= MAX_AREA, 3)?;
    Ok(header)
}

/// What a piece line says of the piece.
struct PieceHeader {
    columns: usize,
    rows: usize,
    turn_sum: usize,
    locked: bool,
}

/// Reads a piece line and adds its box to the area so far. In version 3 it has a sixth field, the lock.
fn read_piece_line(
    lines: &mut Lines,
    version: usize,
    job: &Job,
    index: usize,
    area: &mut usize,
) -> Result<PieceHeader, Refusal> {
    let [number, columns, rows, turn_sum, lock] = if version == 3 {
        lines.take_numbers(b"piece")?
    } else {
        let [number, columns, rows, turn_sum] = lines.take_numbers(b"piece")?;
        [number, columns, rows, turn_sum, FREE]
    };
    let in_range = number == index
        && (1..=255).contains(&columns)
        && (1..=255).contains(&rows)
        && turn_sum <= 15
        && turn_sum % 2 == 1
        && [FREE, LOCKED].contains(&lock);
    lines.require(in_range, 2)?;
    lines.require(columns <= job.columns && rows <= job.rows, 6)?;
    *area += columns * rows;
    lines.require(*area <= MAX_AREA, 4)?;
    Ok(PieceHeader {
        columns,
        rows,
        turn_sum,
        locked: lock == LOCKED,
    })
}

/// Reads the row lines of a piece, the bottom row first.
fn read_rows(lines: &mut Lines, header: PieceHeader) -> Result<Piece, Refusal> {
    let mut pixels = Vec::with_capacity(header.columns * header.rows);
    for _ in 0..header.rows {
        // Another first word leaves no marks, which is refused below since a box has a column.
        let marks = lines.take()?.strip_prefix(b"row,").unwrap_or_default();
        let well_formed =
            marks.len() == header.columns && marks.iter().all(|&mark| mark == b'#' || mark == b'.');
        lines.require(well_formed, 1)?;
        pixels.extend(marks.iter().map(|&mark| mark == b'#'));
    }
    let shape = Shape::new(header.columns, pixels);
    lines.require(shape.is_tight(), 5)?;
    Ok(Piece::new(shape, header.turn_sum, header.locked))
}
