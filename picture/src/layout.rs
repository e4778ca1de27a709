//! A job and its layout, read by the second program's library, and where the pieces lie.

use std::ops::Range;

use second::compact;
use second::cut::{self, CutLine};
use second::job::{self, Job, Refusal};
use second::layout::{self, Placement};

use crate::grid::Grid;

/// A piece where it lies: its turned pixels and the corner of its turned box, and whether it is locked.
pub struct Placed {
    pub grid: Grid,
    /// The same widened by the gap; its corner lies a gap lower and further left.
    wide: Grid,
    pub degrees: usize,
    pub x: usize,
    pub y: usize,
    pub locked: bool,
}

/// A sheet with pieces on it.
pub struct Layout {
    pub rows: usize,
    pub columns: usize,
    /// How many columns and rows the pieces are to keep free between them.
    pub gap: usize,
    pub pieces: Vec<Placed>,
    /// The columns from the smallest corner x to the largest right end of the pieces.
    pub used_columns: Range<usize>,
    /// The lines to cut.
    pub cut_lines: Vec<CutLine>,
    job: Job,
    places: Vec<Placement>,
}

impl Layout {
    /// The pieces of a job at their places.
    fn new(job: Job, places: Vec<Placement>) -> Layout {
        Layout {
            rows: job.rows,
            columns: job.columns,
            gap: job.gap,
            pieces: placed(&job, &places),
            used_columns: layout::used_columns(&job, &places),
            cut_lines: cut::lines(&job, &places),
            job,
            places,
        }
    }

    /// A layout without conflicts after its compaction, and the pixels slid.
    pub fn compacted(&self) -> (Layout, u64) {
        let mut places = self.places.clone();
        let slid = compact::compact(&self.job, &mut places).slid;
        (Layout::new(self.job.clone(), places), slid)
    }

    /// The sheet's pixels at most the gap from a piece, its own among them.
    pub fn band(&self, piece: &Placed) -> Grid {
        Grid::new(self.columns, self.rows, |x, y| {
            // A coordinate below 0 wraps to one beyond the box, where the set has no cell.
            let (across, up) = (x + self.gap, y + self.gap);
            piece
                .wide
                .has(across.wrapping_sub(piece.x), up.wrapping_sub(piece.y))
        })
    }

    /// The pieces' pixels that are at most the gap from another piece; without a gap, those that two or more pieces cover.
    pub fn conflicts(&self) -> Grid {
        let mut covered = vec![false; self.rows * self.columns];
        let mut near = vec![0; self.rows * self.columns];
        for piece in &self.pieces {
            for (x, y) in piece.grid.cells() {
                covered[(piece.y + y) * self.columns + piece.x + x] = true;
            }
            for (x, y) in self.band(piece).cells() {
                near[y * self.columns + x] += 1;
            }
        }
        // One of the pieces near a pixel is its own.
        Grid::new(self.columns, self.rows, |x, y| {
            let pixel = y * self.columns + x;
            covered[pixel] && near[pixel] > 1
        })
    }
}

/// Reads a job and a layout of its pieces; what follows from a line `end,..` on is not read.
pub fn read(job: &[u8], layout: &[u8]) -> Result<Layout, String> {
    let job = job::read(job).map_err(|refusal| said("job", refusal))?;
    let places = layout::read(&job, layout_part(layout));
    let places = places.map_err(|refusal| said("layout", refusal))?;
    Ok(Layout::new(job, places))
}

/// The pieces of a job where a layout puts them.
fn placed(job: &Job, places: &[Placement]) -> Vec<Placed> {
    let pieces = job.pieces.iter().zip(places);
    let placed = pieces.map(|(piece, place)| {
        let shape = piece.shape.turned(place.turn);
        Placed {
            grid: Grid::of_shape(&shape),
            wide: Grid::of_shape(&shape.widened(job.gap)),
            degrees: place.turn.degrees(),
            x: place.x,
            y: place.y,
            locked: piece.locked,
        }
    });
    placed.collect()
}

/// The lines of an output in front of the line `end,..`, all where there is none.
fn layout_part(text: &[u8]) -> &[u8] {
    let is_end = |at: &usize| text[*at..].starts_with(b"\nend,");
    let end = (0..text.len()).find(is_end);
    end.map_or(text, |at| &text[..at + 1])
}

/// What is wrong with a line of a text, in words.
fn said(name: &str, refusal: Refusal) -> String {
    let words = match refusal.number {
        1 => "has the wrong form, is missing or is one too many",
        2 => "has a number out of range or unlike the job's",
        3 => "has too large a sheet",
        4 => "has too large a total of box areas",
        5 => "ends a piece whose box is loose",
        6 => "has a piece larger than the sheet",
        9 => "has a turn that the piece may not take",
        _ => "places the piece outside the sheet",
    };
    format!("{name}: line {} {words}", refusal.line)
}

#[cfg(test)]
mod tests {
    use super::*;

    /// Two corner pieces that may take turn 180 on a sheet of 2 rows and 4 columns.
    fn job() -> String {
        let piece = |number| format!("piece,{number},2,2,5\nrow,##\nrow,#.\n");
        format!("job,1,2,4,2\n{}{}", piece(0), piece(1))
    }

    /// The layout of the two pieces that a text says.
    fn layout(text: &str) -> Result<Layout, String> {
        read(job().as_bytes(), text.as_bytes())
    }

    /// The same with a gap.
    fn layout_with_gap(gap: usize, text: &str) -> Layout {
        let line = format!("job,2,2,4,2,{gap}\n");
        let job = job().replacen("job,1,2,4,2\n", &line, 1);
        read(job.as_bytes(), text.as_bytes()).expect("job and layout are right")
    }

    #[test]
    fn pieces_lie_turned_at_their_corners() {
        let text = "layout,1,2,4,2\nat,0,0,0,0\nat,1,180,1,0\nend,clear,0,0,0,3\nand more";
        let layout = layout(text).expect("the layout is right");
        assert_eq!(layout.used_columns, 0..3);
        assert_eq!(layout.conflicts().count(), 0);
        assert!(!layout.pieces[1].grid.has(0, 0) && layout.pieces[1].grid.has(1, 0));
    }

    #[test]
    fn shared_pixels() {
        let text = "layout,1,2,4,2\nat,0,0,1,0\nat,1,0,2,0\n";
        let shared = layout(text).expect("the layout is right").conflicts();
        assert_eq!(shared.count(), 1);
        assert!(shared.has(2, 0));
    }

    #[test]
    fn pixels_within_the_gap() {
        // Just two pixels meet at their corners; the others are two columns from the other piece.
        let text = "layout,1,2,4,2\nat,0,0,0,0\nat,1,180,2,0\n";
        let layout = layout_with_gap(1, text);
        assert_eq!(layout.conflicts(), Grid::of_marks(&[".#..", "..#."]));
        assert_eq!(
            layout.band(&layout.pieces[0]),
            Grid::of_marks(&["###.", "###."])
        );
        assert_eq!(layout_with_gap(0, text).conflicts().count(), 0);
        assert_eq!(layout_with_gap(8, text).conflicts().count(), 6);
    }

    #[test]
    fn a_compacted_layout_beside_the_one_before() {
        let before = layout("layout,1,2,4,2\nat,0,0,2,0\nat,1,180,0,0\n");
        let before = before.expect("the layout is right");
        let (after, slid) = before.compacted();
        let corners = |layout: &Layout| -> Vec<(usize, usize)> {
            let pieces = layout.pieces.iter();
            pieces.map(|piece| (piece.x, piece.y)).collect()
        };
        // The first piece has nowhere to go: the other one is full on its right side.
        assert_eq!((corners(&after), slid), (corners(&before), 0));
        let before = layout("layout,1,2,4,2\nat,0,0,1,0\nat,1,180,2,0\n");
        let (after, slid) = before.expect("the layout is right").compacted();
        assert_eq!((corners(&after), slid), (vec![(0, 0), (1, 0)], 2));
        assert_eq!(after.used_columns, 0..3);
        assert_eq!(after.conflicts().count(), 0);
    }

    #[test]
    fn locks_are_those_of_the_job() {
        let locked = |job: &str| {
            let text = "layout,1,2,4,2\nat,0,0,0,0\nat,1,0,2,0\n";
            let layout = read(job.as_bytes(), text.as_bytes()).expect("job and layout are right");
            layout.pieces.iter().map(|piece| piece.locked).collect()
        };
        let older: Vec<bool> = locked(&job());
        assert_eq!(older, [false, false]);
        let job = job().replacen("job,1,2,4,2\n", "job,3,2,4,2,0\n", 1);
        let job = job.replace("piece,0,2,2,5", "piece,0,2,2,5,0");
        let job = job.replace("piece,1,2,2,5", "piece,1,2,2,5,1");
        assert_eq!(locked(&job), [false, true]);
    }

    #[test]
    fn wrong_texts_name_their_line() {
        let right = "layout,1,2,4,2\nat,0,0,0,0\nat,1,0,2,0\n";
        assert!(layout(right).is_ok());
        for (text, line) in [
            ("", 1),
            ("refused,1,1\n", 1),
            ("layout,1,2,5,2\n", 1),
            ("layout,1,2,4,2\nat,0,90,0,0\n", 2),
            ("layout,1,2,4,2\nat,0,0,3,0\n", 2),
            ("layout,1,2,4,2\nat,0,0,0,0\nend,clear,0,0,0,4\n", 3),
            ("layout,1,2,4,2\nat,0,0,0,0\nat,1,0,2,0", 3),
            ("layout,1,2,4,2\nat,0,0,0,0\nat,1,0,2,0\nat,2,0,0,0\n", 4),
        ] {
            let found = layout(text).err().unwrap_or_default();
            let place = format!("layout: line {line} ");
            assert!(found.starts_with(&place), "{text}: {found}");
        }
        let loose = job().replacen("row,#.", "row,..", 1);
        let found = read(loose.as_bytes(), right.as_bytes()).err();
        let expected = "job: line 4 ends a piece whose box is loose";
        assert_eq!(found.as_deref(), Some(expected));
    }
}
