//! The no-fit region of two pieces: the corner offsets at which they share a pixel. That of two pieces that are to keep a gap is the
//! region of the one widened by the gap and the other.

use crate::shape::{Direction, Shape, Strip};

/// Bits of a machine word of the bit sets.
const WORD: usize = 64;

/// A shape prepared for Minkowski sums: its rows as bits, and its strips by rising count.
pub struct BitShape {
    columns: usize,
    rows: usize,
    words_per_row: usize,
    row_words: Vec<u64>,
    strips: Vec<Strip>,
}

impl BitShape {
    /// Prepares a shape.
    pub fn new(shape: &Shape) -> BitShape {
        let words_per_row = shape.columns().div_ceil(WORD);
        let mut row_words = vec![0; words_per_row * shape.rows()];
        for y in 0..shape.rows() {
            for x in (0..shape.columns()).filter(|&x| shape.has(x, y)) {
                row_words[y * words_per_row + x / WORD] |= 1 << (x % WORD);
            }
        }
        let mut strips = shape.row_strips();
        strips.sort_by_key(|strip| strip.count);
        BitShape {
            columns: shape.columns(),
            rows: shape.rows(),
            words_per_row,
            row_words,
            strips,
        }
    }

    /// All rows in one bit set, `stride` bits from a row to the next.
    fn spread(&self, stride: usize) -> Vec<u64> {
        let mut bits = vec![0; (self.rows * stride).div_ceil(WORD) + 1];
        for (y, row) in self.row_words.chunks_exact(self.words_per_row).enumerate() {
            or_shifted(&mut bits, row, y * stride);
        }
        bits.truncate((self.rows * stride).div_ceil(WORD));
        bits
    }
}

/// Adds the source, moved up by `shift`, to a target that has a spare word at its end.
fn or_shifted(target: &mut [u64], source: &[u64], shift: usize) {
    let (word, bit) = (shift / WORD, shift % WORD);
    let target = &mut target[word..];
    if bit == 0 {
        target
            .iter_mut()
            .zip(source)
            .for_each(|(to, from)| *to |= from);
        return;
    }
    let carry = WORD - bit;
    // A word takes the low part of its own source word and the high part of the one before.
    target[0] |= source[0] << bit;
    for (to, pair) in target[1..].iter_mut().zip(source.windows(2)) {
        *to |= (pair[1] << bit) | (pair[0] >> carry);
    }
    target[source.len()] |= source[source.len() - 1] >> carry;
}

/// Adds the set, moved up by `shift`, to itself; no bit reaches the end of the set.
fn dilate(bits: &mut [u64], shift: usize) {
    let (word, bit) = (shift / WORD, shift % WORD);
    // From the top down, so that a word is read before it is changed.
    for k in (word..bits.len()).rev() {
        let below = if k > word { bits[k - word - 1] } else { 0 };
        bits[k] |= (bits[k - word] << bit) | ((below >> 1) >> (WORD - 1 - bit));
    }
}

/// The no-fit region of a fixed and a moving shape, as cells of a box.
///
/// With d the moving corner minus the fixed corner, the cell is (d.x + moving columns - 1,
/// d.y + moving rows - 1). Outside the box the shapes share no pixel.
pub struct NoFit {
    columns: usize,
    rows: usize,
    bits: Vec<u64>,
}

impl NoFit {
    /// The no-fit region of a fixed shape and a moving one, which is given turned by 180 degrees.
    ///
    /// The differences of pixels of both are the sums of pixels of the first and of the second
    /// turned by 180 degrees. The bits of one shape are moved to each strip of the other. After
    /// being dilated to a power of two, two moves cover a strip of any count.
    pub fn new(fixed: &BitShape, opposite_moving: &BitShape) -> NoFit {
        let columns = fixed.columns + opposite_moving.columns - 1;
        let rows = fixed.rows + opposite_moving.rows - 1;
        // The spare row takes the unused ends of bit sets that are moved to the last strips.
        let mut bits = vec![0; (columns * (rows + 1)).div_ceil(WORD) + 1];
        // The cost is the number of bits times the number of strips; either shape may be moved.
        let fixed_cost = fixed.rows * opposite_moving.strips.len();
        let moving_cost = opposite_moving.rows * fixed.strips.len();
        let (spread, stripped) = if fixed_cost <= moving_cost {
            (fixed, opposite_moving)
        } else {
            (opposite_moving, fixed)
        };
        let mut dilated = spread.spread(columns);
        let mut reach = 1;
        for strip in &stripped.strips {
            while 2 * reach <= strip.count {
                dilate(&mut dilated, reach);
                reach *= 2;
            }
            let first = strip.y * columns + strip.first;
            or_shifted(&mut bits, &dilated, first);
            if strip.count > reach {
                or_shifted(&mut bits, &dilated, first + strip.count - reach);
            }
        }
        NoFit {
            columns,
            rows,
            bits,
        }
    }

    /// Columns of the box of offsets.
    pub fn columns(&self) -> usize {
        self.columns
    }

    /// Rows of the box of offsets.
    pub fn rows(&self) -> usize {
        self.rows
    }

    /// Whether the shapes share a pixel at the offset of a cell of the box.
    pub fn has(&self, column: usize, row: usize) -> bool {
        let bit = row * self.columns + column;
        self.bits[bit / WORD] >> (bit % WORD) & 1 == 1
    }

    /// The no-fit row: the maximal runs (first, count) of one row of the box, ascending.
    pub fn row_runs(&self, row: usize) -> RowRuns<'_> {
        let begin = row * self.columns;
        RowRuns {
            bits: &self.bits,
            begin,
            position: begin,
            end: begin + self.columns,
        }
    }

    /// The penetration depth along a direction at the offset of a cell of the box.
    pub fn depth(&self, direction: Direction, column: usize, row: usize) -> usize {
        let (position, extent) = match direction {
            Direction::Horizontal => (column, self.columns),
            Direction::Vertical => (row, self.rows),
        };
        let covered = |at: usize| match direction {
            Direction::Horizontal => self.has(at, row),
            Direction::Vertical => self.has(column, at),
        };
        // Beyond the box there is no overlap, so one step outside is free at the latest.
        let up = (position..extent)
            .find(|&at| !covered(at))
            .unwrap_or(extent)
            - position;
        let down = (0..=position)
            .rev()
            .find(|&at| !covered(at))
            .map(|at| position - at);
        up.min(down.unwrap_or(position + 1))
    }
}

/// Goes through the maximal runs of a stretch of a bit set.
pub struct RowRuns<'a> {
    bits: &'a [u64],
    begin: usize,
    position: usize,
    end: usize,
}

impl RowRuns<'_> {
    /// The next position whose bit, after exclusive or with `inversion`, is set; else the end.
    fn seek(&self, inversion: u64) -> usize {
        let mut word = self.position / WORD;
        let low_cleared = u64::MAX << (self.position % WORD);
        let mut found = (self.bits[word] ^ inversion) & low_cleared;
        while found == 0 {
            word += 1;
            if word * WORD >= self.end {
                return self.end;
            }
            found = self.bits[word] ^ inversion;
        }
        self.end.min(word * WORD + found.trailing_zeros() as usize)
    }
}

impl Iterator for RowRuns<'_> {
    type Item = (usize, usize);

    fn next(&mut self) -> Option<(usize, usize)> {
        if self.position < self.end {
            self.position = self.seek(0);
        }
        if self.position >= self.end {
            return None;
        }
        let first = self.position;
        self.position = self.seek(u64::MAX);
        Some((first - self.begin, self.position - first))
    }
}
