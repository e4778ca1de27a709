//! Pixel sets in a box, their counterclockwise turns and their row strips.

/// A counterclockwise rotation by a number of quarter turns, 0 to 3.
#[derive(Clone, Copy, Debug, PartialEq, Eq)]
pub struct Turn(u8);

impl Turn {
    /// The four turns in the order 0, 90, 180, 270 degrees.
    pub const ALL: [Turn; 4] = [Turn(0), Turn(1), Turn(2), Turn(3)];

    /// The number of quarter turns.
    pub fn index(self) -> usize {
        usize::from(self.0)
    }

    /// The angle in degrees.
    pub fn degrees(self) -> usize {
        90 * self.index()
    }

    /// Whether the turn exchanges the columns and rows of a box.
    fn is_sideways(self) -> bool {
        self.0 % 2 == 1
    }

    /// The turn that leads from `base` to this one.
    pub fn relative_to(self, base: Turn) -> Turn {
        Turn((self.0 + 4 - base.0) % 4)
    }

    /// The turn half a revolution further.
    pub fn opposite(self) -> Turn {
        Turn((self.0 + 2) % 4)
    }
}

/// The axis along which a piece is shifted.
#[derive(Clone, Copy, Debug, PartialEq, Eq)]
pub enum Direction {
    /// Along x, the row is held.
    Horizontal,
    /// Along y, the column is held.
    Vertical,
}

impl Direction {
    /// Both directions in the order of the trials.
    pub const ALL: [Direction; 2] = [Direction::Horizontal, Direction::Vertical];

    /// The place in that order.
    pub fn index(self) -> usize {
        self as usize
    }

    /// The direction at a right angle.
    pub fn crossing(self) -> Direction {
        match self {
            Direction::Horizontal => Direction::Vertical,
            Direction::Vertical => Direction::Horizontal,
        }
    }
}

/// A maximal run of pixels in a row.
#[derive(Clone, Copy, Debug, PartialEq, Eq)]
pub struct Strip {
    pub y: usize,
    pub first: usize,
    pub count: usize,
}

/// A set of pixels in a box; pixels are kept row by row, the bottom row first.
#[derive(Clone, Debug, PartialEq, Eq)]
pub struct Shape {
    columns: usize,
    rows: usize,
    pixels: Vec<bool>,
}

impl Shape {
    /// The shape of a box's pixels, `columns` of them a row.
    pub fn new(columns: usize, pixels: Vec<bool>) -> Shape {
        let rows = pixels.len() / columns;
        Shape {
            columns,
            rows,
            pixels,
        }
    }

    /// Columns of the box.
    pub fn columns(&self) -> usize {
        self.columns
    }

    /// Rows of the box.
    pub fn rows(&self) -> usize {
        self.rows
    }

    /// Columns and rows of the turned box.
    pub fn turned_box(&self, turn: Turn) -> [usize; 2] {
        if turn.is_sideways() {
            [self.rows, self.columns]
        } else {
            [self.columns, self.rows]
        }
    }

    /// Whether the box cell (x, y) is a pixel.
    pub fn has(&self, x: usize, y: usize) -> bool {
        self.pixels[y * self.columns + x]
    }

    /// The box cells row by row, the bottom row first.
    pub fn cells(&self) -> impl Iterator<Item = bool> + '_ {
        self.pixels.iter().copied()
    }

    /// The pixels (x, y), row by row.
    pub fn pixels(&self) -> impl Iterator<Item = (usize, usize)> + '_ {
        let cells = (0..self.rows).flat_map(|y| (0..self.columns).map(move |x| (x, y)));
        cells.filter(|&(x, y)| self.has(x, y))
    }

    /// The shape with columns and rows exchanged.
    pub fn transposed(&self) -> Shape {
        let cells = (0..self.columns).flat_map(|x| (0..self.rows).map(move |y| self.has(x, y)));
        Shape::new(self.rows, cells.collect())
    }

    /// The cells at most `gap` columns and at most `gap` rows from a pixel. The box grows by the gap on every side, so that its corner
    /// lies that much lower and further left.
    pub fn widened(&self, gap: usize) -> Shape {
        let along_rows = self.smeared(2 * gap);
        along_rows.transposed().smeared(2 * gap).transposed()
    }

    /// Each pixel with so many cells to the right of it, in a box longer by as many.
    fn smeared(&self, reach: usize) -> Shape {
        let columns = self.columns + reach;
        let mut pixels = vec![false; columns * self.rows];
        for Strip { y, first, count } in self.row_strips() {
            pixels[y * columns + first..][..count + reach].fill(true);
        }
        Shape::new(columns, pixels)
    }

    /// Whether the first and last row and column each hold a pixel.
    pub fn is_tight(&self) -> bool {
        let row_used = |y: usize| (0..self.columns).any(|x| self.has(x, y));
        let column_used = |x: usize| (0..self.rows).any(|y| self.has(x, y));
        row_used(0) && row_used(self.rows - 1) && column_used(0) && column_used(self.columns - 1)
    }

    /// The shape turned counterclockwise.
    pub fn turned(&self, turn: Turn) -> Shape {
        let (l, w) = (self.columns, self.rows);
        let [columns, _] = self.turned_box(turn);
        let mut pixels = vec![false; l * w];
        for y in 0..w {
            for x in 0..l {
                let (to_x, to_y) = match turn.0 {
                    0 => (x, y),
                    1 => (w - 1 - y, x),
                    2 => (l - 1 - x, w - 1 - y),
                    _ => (y, l - 1 - x),
                };
                pixels[to_y * columns + to_x] = self.has(x, y);
            }
        }
        Shape::new(columns, pixels)
    }

    /// The row strips, ordered by y, then x.
    pub fn row_strips(&self) -> Vec<Strip> {
        let mut strips = Vec::new();
        for (y, row) in self.pixels.chunks_exact(self.columns).enumerate() {
            let mut x = 0;
            for run in row.chunk_by(|a, b| a == b) {
                if run[0] {
                    strips.push(Strip {
                        y,
                        first: x,
                        count: run.len(),
                    });
                }
                x += run.len();
            }
        }
        strips
    }
}
