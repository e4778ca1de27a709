//! The public calls of documents 01 and 02 over buffers that a caller lends, with every cause of refusal in its order.
//!
//! A call checks all its causes before it writes anything, so that a refused call leaves the buffers as they are. Placements, strips and
//! turns stand in the buffers as the interface for C lays them down: a turn is its degrees, a layout entry is {turn, x, y}, a strip
//! {line, first, count}, a record entry {laid, turn, x, y}, a table entry {l, w, o, lock}.

mod cut;
mod layouts;
mod lent;
mod locks;
mod pairs;
mod sheet;
mod strips;
mod texts;

pub use cut::{cut_lines, cut_step, line_step};
pub use layouts::{
    check, compact, descent, guided_run, line_search, plain_sum, preview, start, used_length,
    weighted_sum, Ended, Figures, Line, Move, Run, Weighted,
};
pub use lent::{Lent, TableEntry};
pub use locks::{set_lock, CUTTER, PLANNER};
pub use pairs::{depth, no_fit_line, penalty, shares_pixel, Stretch};
pub use sheet::{fresh, lay, withdraw, Counts, RecordEntry, RECORD};
pub use strips::{rebuild, stretch, strips, Stores, StoresMut};
pub use texts::{program, read_job, read_layout, write_layout, OUTPUT};

use crate::job;

/// A cause of refusal; those of one number are told apart, so that each can be asked for.
#[derive(Clone, Copy, Debug, PartialEq, Eq, PartialOrd, Ord)]
pub enum Cause {
    Form,
    TextNumber,
    Weight,
    Budget,
    Rounds,
    Side,
    Pitch,
    Station,
    SheetArea,
    BoxAreas,
    LooseBox,
    BoxAboveSheet,
    BufferShort,
    LayoutLength,
    WeightsLength,
    CountsLength,
    LentSheet,
    LentCount,
    LentGap,
    LentTable,
    LentBox,
    LentTurns,
    LentLock,
    LentAreas,
    LentPixels,
    LentPixel,
    LentLoose,
    Store,
    Stretch,
    Strips,
    Record,
    Counts,
    NoPiece,
    SamePiece,
    TurnsLength,
    Turn,
    LayoutTurn,
    LockedTurn,
    Outside,
    LockedOutside,
    NewOutside,
    NoPlace,
    Conflict,
    Laid,
    NotLaid,
    Locked,
    NotTheCutter,
}

impl Cause {
    /// The number of document 01, or from 15 on of document 02.
    pub fn number(self) -> u32 {
        use Cause::*;
        match self {
            Form => 1,
            TextNumber | Weight | Budget | Rounds | Side | Pitch | Station => 2,
            SheetArea => 3,
            BoxAreas => 4,
            LooseBox => 5,
            BoxAboveSheet => 6,
            BufferShort | LayoutLength | WeightsLength | CountsLength => 7,
            LentSheet | LentCount | LentGap | LentTable | LentBox | LentTurns | LentLock
            | LentAreas | LentPixels | LentPixel | LentLoose | Store | Stretch | Strips
            | Record | Counts => 8,
            NoPiece | SamePiece | TurnsLength | Turn | LayoutTurn | LockedTurn => 9,
            Outside | LockedOutside | NewOutside => 10,
            NoPlace => 11,
            Conflict => 12,
            Laid => 13,
            NotLaid => 14,
            Locked => 15,
            NotTheCutter => 16,
        }
    }
}

/// Why and where a call is refused.
#[derive(Clone, Copy, Debug, PartialEq, Eq)]
pub struct Refusal {
    pub cause: Cause,
    pub places: [usize; 2],
}

impl From<Cause> for Refusal {
    /// A refusal that names no place.
    fn from(cause: Cause) -> Refusal {
        let places = [0, 0];
        Refusal { cause, places }
    }
}

impl From<job::Refusal> for Refusal {
    /// The refusal of a line of a text.
    fn from(refusal: job::Refusal) -> Refusal {
        let cause = match refusal.number {
            1 => Cause::Form,
            2 => Cause::TextNumber,
            3 => Cause::SheetArea,
            4 => Cause::BoxAreas,
            5 => Cause::LooseBox,
            6 => Cause::BoxAboveSheet,
            9 => Cause::Turn,
            _ => Cause::Outside,
        };
        let places = [refusal.line, 0];
        Refusal { cause, places }
    }
}

/// Refuses by a cause unless a condition holds.
fn require(condition: bool, cause: Cause) -> Result<(), Refusal> {
    if condition {
        Ok(())
    } else {
        Err(cause.into())
    }
}
