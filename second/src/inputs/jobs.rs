//! Jobs that the reader accepts, each kind made for something that a search can get wrong.

use std::fmt::Write;

use super::kind::Kind;
use super::random::Random;
use super::shapes::{self, Shape};

/// The largest box side of a piece.
pub const MAX_SIDE: usize = 255;

/// The largest number of sheet pixels.
const MAX_AREA: usize = 65_536;

/// A piece: its pixels and the sum of its allowed turns.
#[derive(Clone)]
pub struct Piece {
    pub shape: Shape,
    pub turns: usize,
}

impl Piece {
    /// A piece of a shape with any of the eight turn sets.
    pub fn new(random: &mut Random, shape: Shape) -> Piece {
        let turns = 2 * random.between(0, 7) + 1;
        Piece { shape, turns }
    }

    /// Columns of the box.
    pub fn columns(&self) -> usize {
        self.shape[0].len()
    }

    /// Rows of the box.
    pub fn rows(&self) -> usize {
        self.shape.len()
    }

    /// The number of pixels.
    fn pixels(&self) -> usize {
        self.shape.iter().flatten().filter(|&&pixel| pixel).count()
    }

    /// The lines of the piece in a job text of version 1 or 2.
    pub fn text(&self, number: usize) -> String {
        self.text_ending(number, "")
    }

    /// The lines of the piece in a job text, with what its first line has behind the turns: in version 3 a comma and the lock.
    pub fn text_ending(&self, number: usize, end: &str) -> String {
        let (columns, rows, turns) = (self.columns(), self.rows(), self.turns);
        let mut text = format!("piece,{number},{columns},{rows},{turns}{end}\n");
        for row in &self.shape {
            let mark = |&pixel: &bool| if pixel { '#' } else { '.' };
            let marks: String = row.iter().map(mark).collect();
            writeln!(text, "row,{marks}").expect("writing to a string succeeds");
        }
        text
    }
}

/// A sheet and its pieces.
pub struct Job {
    pub rows: usize,
    pub columns: usize,
    pub pieces: Vec<Piece>,
}

impl Job {
    /// The job text in version 1, which has no gap.
    pub fn text(&self) -> Vec<u8> {
        let (rows, columns, count) = (self.rows, self.columns, self.pieces.len());
        self.text_after(format!("job,1,{rows},{columns},{count}\n"))
    }

    /// The job text in version 2.
    pub fn text_with_gap(&self, gap: usize) -> Vec<u8> {
        let (rows, columns, count) = (self.rows, self.columns, self.pieces.len());
        self.text_after(format!("job,2,{rows},{columns},{count},{gap}\n"))
    }

    /// A first line and the pieces behind it.
    fn text_after(&self, mut text: String) -> Vec<u8> {
        for (number, piece) in self.pieces.iter().enumerate() {
            text += &piece.text(number);
        }
        text.into_bytes()
    }

    /// The job text in version 3, so many of a hundred pieces locked.
    pub fn text_with_locks(&self, random: &mut Random, gap: usize, percent: usize) -> Vec<u8> {
        let (rows, columns, count) = (self.rows, self.columns, self.pieces.len());
        let mut text = format!("job,3,{rows},{columns},{count},{gap}\n");
        for (number, piece) in self.pieces.iter().enumerate() {
            let lock = if random.chance(percent) { ",1" } else { ",0" };
            text += &piece.text_ending(number, lock);
        }
        text.into_bytes()
    }

    /// Pieces on a sheet of some rows more than the widest one has, with so many of a hundred sheet
    /// pixels covered when none overlap, as far as the longest piece and the limit of area allow.
    fn filled(pieces: Vec<Piece>, more_rows: usize, percent: usize) -> Job {
        let rows = more_rows + pieces.iter().map(Piece::rows).max().unwrap_or(1);
        let longest = pieces.iter().map(Piece::columns).max().unwrap_or(1);
        let pixels: usize = pieces.iter().map(Piece::pixels).sum();
        let columns = (100 * pixels).div_ceil(percent * rows);
        Job {
            rows,
            columns: columns.min(MAX_AREA / rows).max(longest),
            pieces,
        }
    }
}

/// Every kind of job that is accepted, first without a gap, then with one, then with locks.
pub fn kinds() -> Vec<Kind> {
    let kind = |name, count, make: fn(&mut Random) -> Job| {
        Kind::new(name, count, |random| make(random).text())
    };
    let gapped = |name, count, make: fn(&mut Random) -> Job| {
        Kind::new(name, count, |random| with_gap(random, make))
    };
    let locked = |name, count, make: fn(&mut Random) -> Job| {
        Kind::new(name, count, |random| with_locks(random, make))
    };
    vec![
        kind("small", 300, small),
        kind("tight", 250, tight),
        kind("roomy", 100, roomy),
        kind("overfull", 60, overfull),
        kind("stacked", 40, stacked),
        kind("tiled", 150, tiled),
        kind("holes", 80, holes),
        kind("separate parts", 80, separate_parts),
        kind("interlocking", 100, interlocking),
        kind("dust", 80, dust),
        kind("single pixels", 60, single_pixels),
        kind("long strips", 80, long_strips),
        kind("far columns", 25, far_columns),
        kind("one row", 60, one_row),
        kind("one column", 60, one_column),
        kind("largest sheets", 45, largest_sheets),
        kind("one piece", 40, one_piece),
        kind("64 pieces", 60, sixty_four_pieces),
        kind("equal pieces", 60, equal_pieces),
        kind("real size", 30, real_size),
        gapped("small, gap", 130, small),
        gapped("tight, gap", 60, tight),
        gapped("roomy, gap", 60, roomy),
        gapped("stacked, gap", 20, stacked),
        gapped("tiled, gap", 30, tiled),
        gapped("holes, gap", 60, holes),
        gapped("separate parts, gap", 60, separate_parts),
        gapped("interlocking, gap", 30, interlocking),
        gapped("dust, gap", 30, dust),
        gapped("single pixels, gap", 40, single_pixels),
        gapped("long strips, gap", 30, long_strips),
        gapped("far columns, gap", 10, far_columns),
        gapped("one row, gap", 30, one_row),
        gapped("one column, gap", 30, one_column),
        gapped("largest sheets, gap", 20, largest_sheets),
        gapped("64 pieces, gap", 20, sixty_four_pieces),
        gapped("equal pieces, gap", 30, equal_pieces),
        gapped("real size, gap", 10, real_size),
        Kind::listed("gap at the limits", gap_at_the_limits()),
        locked("small, locks", 90, small),
        locked("tight, locks", 50, tight),
        locked("roomy, locks", 40, roomy),
        locked("overfull, locks", 20, overfull),
        locked("stacked, locks", 10, stacked),
        locked("tiled, locks", 30, tiled),
        locked("holes, locks", 30, holes),
        locked("separate, locks", 20, separate_parts),
        locked("interlocking, locks", 20, interlocking),
        locked("dust, locks", 20, dust),
        locked("pixels, locks", 20, single_pixels),
        locked("long strips, locks", 10, long_strips),
        locked("far columns, locks", 5, far_columns),
        locked("one row, locks", 15, one_row),
        locked("one column, locks", 15, one_column),
        locked("largest, locks", 10, largest_sheets),
        locked("one piece, locks", 10, one_piece),
        locked("64 pieces, locks", 15, sixty_four_pieces),
        locked("equal, locks", 20, equal_pieces),
        locked("real size, locks", 10, real_size),
    ]
}

/// Any gap that a job may have, mostly a small one.
pub fn any_gap(random: &mut Random) -> usize {
    random.pick(&[0, 1, 1, 1, 2, 2, 3, 4, 5, 6, 7, 8, 8])
}

/// Any share of the pieces that may be locked, in a hundred: none, some or all.
pub fn any_locks(random: &mut Random) -> usize {
    random.pick(&[0, 15, 15, 40, 40, 70, 70, 100])
}

/// A job, often on a longer sheet, so that some of them end clear.
fn roomier(random: &mut Random, make: fn(&mut Random) -> Job) -> Job {
    let mut job = make(random);
    let longest = 4096.min(MAX_AREA / job.rows).max(job.columns);
    job.columns = (job.columns * random.pick(&[2, 2, 3, 5, 8]) / 2).min(longest);
    job
}

/// The text of such a job with a gap.
fn with_gap(random: &mut Random, make: fn(&mut Random) -> Job) -> Vec<u8> {
    roomier(random, make).text_with_gap(any_gap(random))
}

/// The text of such a job with locks, half of them without a gap.
fn with_locks(random: &mut Random, make: fn(&mut Random) -> Job) -> Vec<u8> {
    let job = roomier(random, make);
    let gap = if random.chance(50) {
        0
    } else {
        any_gap(random)
    };
    let percent = any_locks(random);
    job.text_with_locks(random, gap, percent)
}

/// Full pieces of the largest sides that a text has room for, with gaps up to the largest: the depths along the rows are above 255,
/// and the penalties of the last pair are as large as a program can meet.
fn gap_at_the_limits() -> Vec<Vec<u8>> {
    let piece = |&(columns, rows): &(usize, usize)| Piece {
        shape: shapes::full(columns, rows),
        turns: 15,
    };
    let mut texts = Vec::new();
    for (rows, columns, boxes) in [
        (1, 4096, &[(MAX_SIDE, 1); 20][..]),
        (512, 2, &[(1, MAX_SIDE); 5]),
        (126, 257, &[(MAX_SIDE, 125); 2]),
        (256, 256, &[(MAX_SIDE, 124), (124, MAX_SIDE)]),
    ] {
        let pieces = boxes.iter().map(piece).collect();
        let job = Job {
            rows,
            columns,
            pieces,
        };
        texts.extend([0, 1, 7, 8].map(|gap| job.text_with_gap(gap)));
    }
    texts
}

/// A number of pieces of the shapes that a maker gives.
fn pieces(random: &mut Random, count: usize, make: impl Fn(&mut Random) -> Shape) -> Vec<Piece> {
    let mut piece = |_| {
        let shape = make(random);
        Piece::new(random, shape)
    };
    (0..count).map(&mut piece).collect()
}

/// A shape of any form with sides in a range, before its box is made tight.
fn any_shape(random: &mut Random, low: usize, high: usize) -> Shape {
    let (columns, rows) = (random.between(low, high), random.between(low, high));
    shapes::any(random, columns, rows)
}

/// A few small pieces on a small sheet of any sides.
pub fn small(random: &mut Random) -> Job {
    let (rows, columns) = (random.between(1, 10), random.between(1, 14));
    let count = random.between(1, 7);
    let pieces = pieces(random, count, |random| {
        let length = random.between(1, columns.min(5));
        let width = random.between(1, rows.min(5));
        shapes::any(random, length, width)
    });
    Job {
        rows,
        columns,
        pieces,
    }
}

/// Pieces that cover most of the sheet or a little more than all of it.
fn tight(random: &mut Random) -> Job {
    let count = random.between(3, 12);
    let pieces = pieces(random, count, |random| any_shape(random, 2, 9));
    Job::filled(pieces, random.between(0, 8), random.between(80, 115))
}

/// Pieces with much free cloth around them.
fn roomy(random: &mut Random) -> Job {
    let count = random.between(2, 16);
    let pieces = pieces(random, count, |random| any_shape(random, 1, 12));
    Job::filled(pieces, random.between(0, 20), random.between(15, 60))
}

/// More pixels than the sheet has, so that no layout is clear.
fn overfull(random: &mut Random) -> Job {
    let count = random.between(4, 12);
    let pieces = pieces(random, count, |random| any_shape(random, 3, 8));
    Job::filled(pieces, random.between(0, 3), random.between(120, 300))
}

/// Pieces of about the sheet's size, so that the depths and the sums are as large as a text allows.
fn stacked(random: &mut Random) -> Job {
    let (count, side) = random.pick(&[(2, 175), (3, 140), (8, 85), (20, 50), (64, 29)]);
    let uneven = random.pick(&[0, 5]);
    let pieces = pieces(random, count, |random| {
        let length = random.between(side - uneven, side);
        let width = random.between(side - uneven, side);
        if uneven > 0 && random.chance(25) {
            shapes::any(random, length, width)
        } else {
            shapes::full(length, width)
        }
    });
    Job {
        rows: side + random.between(0, 2),
        columns: side + random.pick(&[0, 1, 3, 20]),
        pieces,
    }
}

/// Pieces that fill the sheet exactly: each pixel belongs to the nearest of some points.
fn tiled(random: &mut Random) -> Job {
    let (rows, columns) = (random.between(2, 14), random.between(2, 20));
    let count = random.between(2, 10);
    let mut point = |_| (random.between(0, columns - 1), random.between(0, rows - 1));
    let points: Vec<(usize, usize)> = (0..count).map(&mut point).collect();
    let nearest = |x: usize, y: usize| {
        let distance = |&k: &usize| {
            let (across, up) = (x.abs_diff(points[k].0), y.abs_diff(points[k].1));
            across * across + up * up
        };
        (0..count).min_by_key(distance)
    };
    let tile = |k: usize| shapes::draw(columns, rows, |x, y| nearest(x, y) == Some(k));
    Job {
        rows,
        columns,
        pieces: (0..count).map(|k| Piece::new(random, tile(k))).collect(),
    }
}

/// Frames, and for the hole of each a piece that fills it or leaves some of it free.
fn holes(random: &mut Random) -> Job {
    let mut pieces = Vec::new();
    for _ in 0..random.between(1, 4) {
        let (columns, rows) = (random.between(6, 12), random.between(6, 12));
        let border = random.between(1, 2);
        let less = 2 * border + random.between(0, 1);
        let filler = shapes::any(random, columns - less, rows - less);
        for shape in [shapes::frame(columns, rows, border), filler] {
            pieces.push(Piece::new(random, shape));
        }
    }
    Job::filled(pieces, random.between(0, 4), random.between(80, 105))
}

/// Pieces of several parts that can lie between each other.
fn separate_parts(random: &mut Random) -> Job {
    let count = random.between(2, 9);
    let pieces = pieces(random, count, |random| {
        let (columns, rows) = (random.between(2, 11), random.between(2, 11));
        match random.between(0, 2) {
            0 => shapes::rings(columns, rows),
            1 => shapes::bars(random, columns, rows),
            _ => shapes::corners(random, columns, rows),
        }
    });
    Job::filled(pieces, random.between(0, 6), random.between(60, 100))
}

/// Two or three thin pieces of about one length, in turn 0 only, on a sheet a little longer. They part by sliding into each other's gaps, so
/// that many a run ends with cloth free on the left.
fn interlocking(random: &mut Random) -> Job {
    let (columns, rows) = (random.between(4, 8), random.between(2, 3));
    let count = random.between(2, 3);
    let thin = |_| Piece {
        shape: shapes::draw(columns, rows, |_, _| random.chance(40)),
        turns: 1,
    };
    let pieces: Vec<Piece> = (0..count).map(thin).collect();
    Job {
        rows: pieces.iter().map(Piece::rows).max().unwrap_or(1),
        columns: columns + random.between(1, 3),
        pieces,
    }
}

/// Pieces of grains with many strips a line.
fn dust(random: &mut Random) -> Job {
    let count = random.between(2, 8);
    let pieces = pieces(random, count, |random| {
        let (columns, rows) = (random.between(3, 18), random.between(3, 18));
        shapes::dust(random, columns, rows)
    });
    Job::filled(pieces, random.between(0, 6), random.between(50, 100))
}

/// Pieces of one pixel, about as many as the sheet has pixels.
fn single_pixels(random: &mut Random) -> Job {
    let (rows, count) = (random.between(1, 8), random.between(1, 64));
    Job {
        rows,
        columns: random.between(count.div_ceil(2 * rows), count / rows + 2),
        pieces: pieces(random, count, |_| shapes::full(1, 1)),
    }
}

/// Strips of up to the largest side, most of them along the sheet, some across it.
fn long_strips(random: &mut Random) -> Job {
    let count = random.between(2, 12);
    let pieces = pieces(random, count, |random| {
        let (length, width) = (random.between(30, MAX_SIDE), random.between(1, 3));
        match random.between(0, 4) {
            0 => shapes::full(width, random.between(2, 20)),
            1 => shapes::dust(random, length, width),
            2 => shapes::ragged(random, length, width),
            _ => shapes::full(length, width),
        }
    });
    Job::filled(pieces, random.between(0, 4), random.between(80, 110))
}

/// Pieces along the whole of a long sheet, so that some lie far out.
fn far_columns(random: &mut Random) -> Job {
    let (rows, count) = (random.between(2, 16), random.between(20, 26));
    let pieces = pieces(random, count, |random| {
        let (length, width) = (random.between(60, MAX_SIDE), random.between(rows / 2, rows));
        shapes::any(random, length, width)
    });
    let total: usize = pieces.iter().map(Piece::columns).sum();
    Job {
        rows,
        columns: (total * random.between(75, 100) / 100).min(4096),
        pieces,
    }
}

/// An extent of a sheet: mostly short, now and then the largest.
fn extent(random: &mut Random, largest: usize) -> usize {
    match random.between(0, 5) {
        0 => largest,
        1 => random.between(1, largest),
        _ => random.between(1, 60),
    }
}

/// Pieces of one row on a sheet of one row.
fn one_row(random: &mut Random) -> Job {
    let (columns, count) = (extent(random, 4096), random.between(1, 12));
    let longest = MAX_SIDE.min(columns.div_ceil(3));
    let pieces = pieces(random, count, |random| {
        let length = random.between(1, longest);
        shapes::dust(random, length, 1)
    });
    Job {
        rows: 1,
        columns,
        pieces,
    }
}

/// Pieces of one column on a sheet of one column.
fn one_column(random: &mut Random) -> Job {
    let (rows, count) = (extent(random, 512), random.between(1, 12));
    let widest = MAX_SIDE.min(rows.div_ceil(3));
    let pieces = pieces(random, count, |random| {
        let width = random.between(1, widest);
        shapes::dust(random, 1, width)
    });
    Job {
        rows,
        columns: 1,
        pieces,
    }
}

/// The sheets at the limits of rows, columns and area.
pub const LARGEST_SHEETS: [(usize, usize); 7] = [
    (512, 128),
    (16, 4096),
    (256, 256),
    (128, 512),
    (255, 257),
    (512, 1),
    (1, 4096),
];

/// Large and small pieces on the largest sheets, as many as the text has room for.
fn largest_sheets(random: &mut Random) -> Job {
    let (rows, columns) = random.pick(&LARGEST_SHEETS);
    let mut job = Job {
        rows,
        columns,
        pieces: Vec::new(),
    };
    let mut room = 60_000;
    for _ in 0..random.between(1, 12) {
        let part = random.pick(&[1, 1, 2, 4]);
        let length = random.between(1, columns.min(MAX_SIDE).div_ceil(part));
        let width = random.between(1, rows.min(200).div_ceil(part));
        let shape = shapes::any(random, length, width);
        let piece = Piece::new(random, shape);
        let size = piece.text(job.pieces.len()).len();
        if size <= room {
            room -= size;
            job.pieces.push(piece);
        }
    }
    job
}

/// A piece alone.
fn one_piece(random: &mut Random) -> Job {
    let side = random.pick(&[1, 4, 30, 200]);
    let pieces = pieces(random, 1, |random| any_shape(random, 1, side));
    Job::filled(pieces, random.between(0, 20), random.between(20, 100))
}

/// The largest number of pieces.
fn sixty_four_pieces(random: &mut Random) -> Job {
    let side = random.between(1, 5);
    let pieces = pieces(random, 64, |random| any_shape(random, 1, side));
    Job::filled(pieces, random.between(2, 12), random.between(75, 110))
}

/// Copies of one or two shapes, so that lengths and sums are often equal.
fn equal_pieces(random: &mut Random) -> Job {
    let (first, other) = (any_shape(random, 1, 6), any_shape(random, 1, 6));
    let count = random.between(2, 20);
    let pieces = pieces(random, count, |random| {
        random.pick(&[&first, &first, &other]).clone()
    });
    Job::filled(pieces, random.between(0, 6), random.between(70, 105))
}

/// Many pieces of usual size.
fn real_size(random: &mut Random) -> Job {
    let count = random.between(16, 40);
    let pieces = pieces(random, count, |random| any_shape(random, 6, 24));
    Job::filled(pieces, random.between(10, 60), random.between(80, 95))
}
