//! Compaction: the free pieces of a layout slid to the left and down, pixel by pixel.

use crate::job::Job;
use crate::layout::Placement;
use crate::shape::Shape;

/// What a compaction comes to.
#[derive(Clone, Copy, Debug, PartialEq, Eq)]
pub struct Compacted {
    /// The pixels slid, to the left and down, of all pieces together.
    pub slid: u64,
    /// The passes that slid some piece.
    pub passes: usize,
}

/// Slides the free pieces of a layout in which no two conflict, in number order and pass after pass, until none can slide any more.
pub fn compact(job: &Job, layout: &mut [Placement]) -> Compacted {
    let outlines: Vec<Outline> = layout
        .iter()
        .zip(&job.pieces)
        .map(|(place, piece)| Outline::new(&piece.shape.turned(place.turn), job.gap))
        .collect();
    let mut sheet = Sheet::new(job);
    for (outline, place) in outlines.iter().zip(layout.iter()) {
        sheet.lay(outline, place);
    }
    let (mut slid, mut passes) = (0, 0);
    loop {
        let mut in_this_pass = 0;
        for (number, outline) in outlines.iter().enumerate() {
            if !job.pieces[number].locked {
                in_this_pass += sheet.slide(outline, &mut layout[number]);
            }
        }
        if in_this_pass == 0 {
            return Compacted { slid, passes };
        }
        slid += in_this_pass;
        passes += 1;
    }
}

/// A cell of a box, counted from its corner.
type Cell = (usize, usize);

/// What a sheet has to know of a turned piece.
struct Outline {
    /// The pixels with none of the piece on their left: a step to the left reaches new cloth just left of these.
    left: Vec<Cell>,
    /// The pixels with none of the piece below them.
    lower: Vec<Cell>,
    /// The cells at most the gap from a pixel, counted from a gap before the corner.
    wide: Vec<Cell>,
}

impl Outline {
    /// The outline of a turned piece.
    fn new(shape: &Shape, gap: usize) -> Outline {
        let on_the_left = |&(x, y): &Cell| x == 0 || !shape.has(x - 1, y);
        let below = |&(x, y): &Cell| y == 0 || !shape.has(x, y - 1);
        Outline {
            left: shape.pixels().filter(on_the_left).collect(),
            lower: shape.pixels().filter(below).collect(),
            wide: shape.widened(gap).pixels().collect(),
        }
    }
}

/// For each pixel of the sheet, row by row, how many of the pieces that lie there come within the gap of it.
struct Sheet<'a> {
    job: &'a Job,
    near: Vec<u8>,
}

impl Sheet<'_> {
    /// A sheet on which nothing lies.
    fn new(job: &Job) -> Sheet<'_> {
        let near = vec![0; job.rows * job.columns];
        Sheet { job, near }
    }

    /// Lays a piece.
    fn lay(&mut self, outline: &Outline, place: &Placement) {
        self.change(outline, place, |near| near + 1);
    }

    /// Takes a piece away.
    fn lift(&mut self, outline: &Outline, place: &Placement) {
        self.change(outline, place, |near| near - 1);
    }

    /// Changes the numbers of all pixels of the sheet that come within the gap of a piece.
    fn change(&mut self, outline: &Outline, place: &Placement, to: impl Fn(u8) -> u8) {
        let Job { columns, rows, .. } = *self.job;
        for &(x, y) in &outline.wide {
            let pixel = [place.x + x, place.y + y].map(|end| end.checked_sub(self.job.gap));
            if let [Some(x), Some(y)] = pixel {
                if x < columns && y < rows {
                    let near = &mut self.near[y * columns + x];
                    *near = to(*near);
                }
            }
        }
    }

    /// Slides a piece that lies on the sheet, left and down in turn until neither moves it; gives the pixels slid.
    fn slide(&mut self, outline: &Outline, place: &mut Placement) -> u64 {
        self.lift(outline, place);
        let begin = *place;
        loop {
            let before = *place;
            while place.x > 0 && self.is_clear(&outline.left, place.x - 1, place.y) {
                place.x -= 1;
            }
            while place.y > 0 && self.is_clear(&outline.lower, place.x, place.y - 1) {
                place.y -= 1;
            }
            if *place == before {
                break;
            }
        }
        self.lay(outline, place);
        (begin.x - place.x + begin.y - place.y) as u64
    }

    /// Whether no piece comes within the gap of some cells of a box with its corner at (x, y).
    fn is_clear(&self, cells: &[Cell], x: usize, y: usize) -> bool {
        let pixel = |&(across, up): &Cell| (y + up) * self.job.columns + x + across;
        cells.iter().all(|cell| self.near[pixel(cell)] == 0)
    }
}
