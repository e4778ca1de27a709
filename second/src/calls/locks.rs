//! Setting of a lock in the table of a lent job.

use super::lent::{Lent, TableEntry};
use super::{require, Cause, Refusal};
use crate::job::LOCKED;

/// The stations: the planner's may not set a lock, the cutter's may.
pub const PLANNER: usize = 0;
pub const CUTTER: usize = 1;

/// Locks a piece from a station; gives its entry of the table as it has to stand there from now on.
pub fn set_lock(lent: &Lent, number: usize, station: usize) -> Result<TableEntry, Refusal> {
    lent.job()?;
    require([PLANNER, CUTTER].contains(&station), Cause::Station)?;
    require(number < lent.count, Cause::NoPiece)?;
    require(station == CUTTER, Cause::NotTheCutter)?;
    let [columns, rows, turns, _] = lent.table[number];
    Ok([columns, rows, turns, LOCKED as u8])
}
