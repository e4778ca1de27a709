//! A thin safe layer over the calls that the examples and the cut list's program use.
//!
//! The layer is sound because a call trusts no byte that it is lent, keeps no pointer and writes only inside the lengths that it is
//! given: every length below is that of a slice, and what a call writes is borrowed for it alone. A thread that calls needs up to 1.5 MB
//! of stack beyond its own; one of the standard library has 2 MB unless `stack_size` says otherwise.

use alloc::vec;
use alloc::vec::Vec;
use core::fmt;

use crate::{
    cut_lines_capacity, CutLine, Entry, Place, Reply, CLEAR, DONE, FREE, LAYOUT_TEXT, LOCKED,
    PIECES, PIXELS, SETTLED, STEP_CUT, STEP_LIFT,
};

/// A call that is refused, and by what.
#[derive(Clone, Copy, Debug, PartialEq, Eq)]
pub struct Refused(pub Reply);

/// A refusal as an error.
fn accepted(reply: Reply) -> Result<(), Refused> {
    match reply.number {
        DONE => Ok(()),
        _ => Err(Refused(reply)),
    }
}

impl fmt::Display for Refused {
    fn fmt(&self, to: &mut fmt::Formatter) -> fmt::Result {
        let Reply {
            number,
            first,
            second,
        } = self.0;
        write!(to, "refused: {number}, places {first} and {second}")
    }
}

/// How a descent ended.
#[derive(Clone, Copy, Debug, PartialEq, Eq)]
pub enum End {
    Clear,
    Settled,
    Spent,
}

/// What a descent gives beside the layout.
pub struct Descent {
    pub end: End,
    pub sum: u64,
    pub trials: u64,
    pub moves: u64,
}

/// What a layout comes to: its weighted sum and the columns of cloth that it spends.
#[derive(Clone, Copy, Debug, PartialEq, Eq)]
pub struct Figures {
    pub sum: u64,
    pub used: usize,
}

/// What the knife does at a step; a point is x and y in millimetres.
#[derive(Clone, Copy, Debug, PartialEq)]
pub enum Step {
    Lift(f64, f64),
    Cut(f64, f64),
    Done,
}

/// A step of the lines of a cut list.
pub fn line_step(lines: &[CutLine], pitch: u32, step: u64) -> Result<Step, Refused> {
    let (mut word, mut x, mut y) = (0, 0.0, 0.0);
    // Sound by what the head of this file says.
    accepted(unsafe {
        crate::sigbrol_line_step(
            lines.as_ptr(),
            lines.len(),
            pitch,
            step,
            &mut word,
            &mut x,
            &mut y,
        )
    })?;
    Ok(match word {
        STEP_LIFT => Step::Lift(x, y),
        STEP_CUT => Step::Cut(x, y),
        _ => Step::Done,
    })
}

/// What a guided run gives beside the layout and the weights.
pub struct Guided {
    pub sum: u64,
    pub trials: u64,
    pub moves: u64,
}

/// A job that has been read.
#[derive(Clone)]
pub struct Job {
    rows: usize,
    columns: usize,
    count: usize,
    gap: usize,
    table: Vec<Entry>,
    pixels: Vec<u8>,
}

/// Makes a call that is lent the job, with further arguments, and gives a refusal as an error.
macro_rules! lend {
    ($job:expr, $call:ident, $($argument:expr),*) => {{
        let Job { rows, columns, count, gap, table, pixels } = $job;
        // Sound by what the head of this file says.
        accepted(unsafe {
            crate::$call(*rows, *columns, *count, *gap, table.as_ptr(), table.len(), pixels.as_ptr(), pixels.len(), $($argument),*)
        })
    }};
}

impl Job {
    /// Reads a job text.
    pub fn read(text: &[u8]) -> Result<Job, Refused> {
        let (mut rows, mut columns, mut count, mut gap) = (0, 0, 0, 0);
        let mut table = vec![[0; 4]; PIECES];
        let mut pixels = vec![0; PIXELS];
        // Sound by what the head of this file says.
        let reply = unsafe {
            crate::sigbrol_read_job(
                text.as_ptr(),
                text.len(),
                table.as_mut_ptr(),
                table.len(),
                pixels.as_mut_ptr(),
                pixels.len(),
                &mut rows,
                &mut columns,
                &mut count,
                &mut gap,
            )
        };
        accepted(reply)?;
        Ok(Job {
            rows,
            columns,
            count,
            gap,
            table,
            pixels,
        })
    }

    /// The number of pieces.
    pub fn count(&self) -> usize {
        self.count
    }

    /// Rows and columns of the sheet.
    pub fn sheet(&self) -> [usize; 2] {
        [self.rows, self.columns]
    }

    /// Whether a piece is locked.
    pub fn is_locked(&self, piece: usize) -> bool {
        self.table[piece][3] == LOCKED
    }

    /// A copy of the job in which every piece is free.
    pub fn with_all_free(&self) -> Job {
        let mut job = self.clone();
        job.table.iter_mut().for_each(|entry| entry[3] = FREE);
        job
    }

    /// Locks a piece from a station.
    pub fn set_lock(&mut self, piece: usize, station: usize) -> Result<(), Refused> {
        // Sound by what the head of this file says.
        accepted(unsafe {
            crate::sigbrol_set_lock(
                self.rows,
                self.columns,
                self.count,
                self.gap,
                self.table.as_mut_ptr(),
                self.table.len(),
                self.pixels.as_ptr(),
                self.pixels.len(),
                piece,
                station,
            )
        })
    }

    /// Reads a layout text.
    pub fn read_layout(&self, text: &[u8]) -> Result<Vec<Place>, Refused> {
        let mut layout = vec![[0; 3]; self.count];
        lend!(
            self,
            sigbrol_read_layout,
            text.as_ptr(),
            text.len(),
            layout.as_mut_ptr(),
            layout.len()
        )?;
        Ok(layout)
    }

    /// The lines to cut of a layout that passes the check.
    pub fn cut_lines(&self, layout: &[Place]) -> Result<Vec<CutLine>, Refused> {
        let mut lines = vec![[0; 4]; cut_lines_capacity(self.rows, self.columns)];
        let mut count = 0;
        lend!(
            self,
            sigbrol_cut_lines,
            layout.as_ptr(),
            layout.len(),
            lines.as_mut_ptr(),
            lines.len(),
            &mut count
        )?;
        lines.truncate(count);
        Ok(lines)
    }

    /// The start layout: free pieces are stacked, locked ones stay where the layout has them.
    pub fn start(&self, layout: &mut [Place]) -> Result<(), Refused> {
        lend!(self, sigbrol_start, layout.as_mut_ptr(), layout.len())
    }

    /// Pushes the free pieces of a layout that passes the check left and down; gives the pixels slid.
    pub fn compact(&self, layout: &mut [Place]) -> Result<u64, Refused> {
        let mut slid = 0;
        lend!(
            self,
            sigbrol_compact,
            layout.as_mut_ptr(),
            layout.len(),
            &mut slid
        )?;
        Ok(slid)
    }

    /// A descent; the layout becomes the one at its end. The workspace may have any content and length.
    pub fn descent(
        &self,
        layout: &mut [Place],
        weights: &[u32],
        budget: u32,
        workspace: &mut [u64],
    ) -> Result<Descent, Refused> {
        let (mut end, mut sum, mut trials, mut moves) = (0, 0, 0, 0);
        lend!(
            self,
            sigbrol_descent,
            layout.as_mut_ptr(),
            layout.len(),
            weights.as_ptr(),
            weights.len(),
            budget,
            workspace.as_mut_ptr(),
            workspace.len(),
            &mut end,
            &mut sum,
            &mut trials,
            &mut moves
        )?;
        let end = match end {
            CLEAR => End::Clear,
            SETTLED => End::Settled,
            _ => End::Spent,
        };
        Ok(Descent {
            end,
            sum,
            trials,
            moves,
        })
    }

    /// A guided run; the layout becomes the best one, the weights the new ones. The workspace may have any content and length.
    pub fn guided_run(
        &self,
        layout: &mut [Place],
        weights: &mut [u32],
        rounds: u32,
        budget: u32,
        workspace: &mut [u64],
    ) -> Result<Guided, Refused> {
        let (mut sum, mut trials, mut moves) = (0, 0, 0);
        lend!(
            self,
            sigbrol_guided_run,
            layout.as_mut_ptr(),
            layout.len(),
            weights.as_mut_ptr(),
            weights.len(),
            rounds,
            budget,
            workspace.as_mut_ptr(),
            workspace.len(),
            &mut sum,
            &mut trials,
            &mut moves
        )?;
        Ok(Guided { sum, trials, moves })
    }

    /// Whether the boxes of two pieces come within the gap; where they do not, the pieces do not conflict.
    pub fn boxes_meet(&self, layout: &[Place], i: usize, k: usize) -> bool {
        // The first and the end column and row of a turned box; its sides change places at 90 and 270 degrees.
        let ranges = |piece: usize| {
            let [turn, x, y] = layout[piece].map(u32::from);
            let [l, w, ..] = self.table[piece].map(u32::from);
            let (l, w) = if turn % 180 == 0 { (l, w) } else { (w, l) };
            [(x, x + l), (y, y + w)]
        };
        let gap = self.gap as u32;
        let mut axes = ranges(i).into_iter().zip(ranges(k));
        axes.all(|(one, other)| one.0 < other.1 + gap && other.0 < one.1 + gap)
    }

    /// Whether two pieces conflict.
    pub fn shares_pixel(&self, layout: &[Place], i: usize, k: usize) -> Result<bool, Refused> {
        let mut shares = 0;
        lend!(
            self,
            sigbrol_shares_pixel,
            layout.as_ptr(),
            layout.len(),
            i,
            k,
            &mut shares
        )?;
        Ok(shares != 0)
    }

    /// The penalties of all pairs together.
    pub fn plain_sum(&self, layout: &[Place]) -> Result<u64, Refused> {
        let mut sum = 0;
        lend!(
            self,
            sigbrol_plain_sum,
            layout.as_ptr(),
            layout.len(),
            &mut sum
        )?;
        Ok(sum)
    }

    /// The columns of cloth that a layout spends, from the smallest corner x to the largest right end.
    pub fn used_length(&self, layout: &[Place]) -> Result<usize, Refused> {
        let mut used = 0;
        lend!(
            self,
            sigbrol_used_length,
            layout.as_ptr(),
            layout.len(),
            &mut used
        )?;
        Ok(used)
    }

    /// What the layout would come to with one piece placed anew; the layout stays as it is.
    pub fn preview(
        &self,
        layout: &[Place],
        weights: &[u32],
        piece: usize,
        place: Place,
    ) -> Result<Figures, Refused> {
        let (mut sum, mut used) = (0, 0);
        let [turn, x, y] = place;
        lend!(
            self,
            sigbrol_preview,
            layout.as_ptr(),
            layout.len(),
            weights.as_ptr(),
            weights.len(),
            piece,
            turn,
            x,
            y,
            &mut sum,
            &mut used
        )?;
        Ok(Figures { sum, used })
    }

    /// The layout as text.
    pub fn write_layout(&self, layout: &[Place]) -> Result<Vec<u8>, Refused> {
        let mut text = vec![0; LAYOUT_TEXT];
        let mut written = 0;
        lend!(
            self,
            sigbrol_write_layout,
            layout.as_ptr(),
            layout.len(),
            text.as_mut_ptr(),
            text.len(),
            &mut written
        )?;
        text.truncate(written);
        Ok(text)
    }

    /// Passes exactly the layouts that the knife may follow.
    pub fn check(&self, layout: &[Place]) -> Result<(), Refused> {
        lend!(self, sigbrol_check, layout.as_ptr(), layout.len())
    }
}
