//! Whole layouts: sums, used length, preview of a move, check, start layout, compaction, line search, descent and guided run.

use super::lent::{placements, write_placements};
use super::{require, Cause, Lent, Refusal};
use crate::compact::{self, Compacted};
use crate::job::Job;
use crate::layout::{self, inside, Placement};
use crate::search::{Descent, End, LinePlace, Search};
use crate::shape::{Direction, Turn};

/// The largest budget and the largest number of rounds.
const MAX_BUDGET: u32 = 1_000_000_000;
const MAX_ROUNDS: u32 = 1_000;

/// A lent layout and weights.
#[derive(Clone, Copy)]
pub struct Weighted<'a> {
    pub layout: &'a [[u16; 3]],
    pub weights: &'a [u32],
}

impl Weighted<'_> {
    /// Causes 7 and, of the weights, 2; gives the weights.
    fn weights(&self, job: &Job) -> Result<Vec<u16>, Refusal> {
        require(self.layout.len() == job.pieces.len(), Cause::LayoutLength)?;
        require(self.weights.len() == job.pair_count(), Cause::WeightsLength)?;
        let weight = |&weight: &u32| u16::try_from(weight).ok().filter(|&weight| weight > 0);
        let weights = self.weights.iter().map(weight).collect();
        Option::ok_or(weights, Cause::Weight.into())
    }
}

/// The placements of a layout that is lent without weights: causes 8, 7, those of `own`, 9 and 10.
fn asked(
    lent: &Lent,
    layout: &[[u16; 3]],
    own: impl Fn() -> Result<(), Refusal>,
) -> Result<(Job, Vec<Placement>), Refusal> {
    let job = lent.job()?;
    require(layout.len() == lent.count, Cause::LayoutLength)?;
    own()?;
    let places = placements(&job, layout)?;
    Ok((job, places))
}

/// The same of a call that has no cause of its own there.
fn plain(lent: &Lent, layout: &[[u16; 3]]) -> Result<(Job, Vec<Placement>), Refusal> {
    asked(lent, layout, || Ok(()))
}

/// The weighted sum of a layout.
pub fn weighted_sum(lent: &Lent, given: Weighted) -> Result<u64, Refusal> {
    let job = lent.job()?;
    let weights = given.weights(&job)?;
    let places = placements(&job, given.layout)?;
    Ok(Search::new(&job, places, &weights).weighted_sum())
}

/// The plain sum of a layout.
pub fn plain_sum(lent: &Lent, layout: &[[u16; 3]]) -> Result<u64, Refusal> {
    let (job, places) = plain(lent, layout)?;
    let unit_weights = vec![1; job.pair_count()];
    Ok(Search::new(&job, places, &unit_weights).plain_sum())
}

/// The used length of a layout.
pub fn used_length(lent: &Lent, layout: &[[u16; 3]]) -> Result<usize, Refusal> {
    let (job, places) = plain(lent, layout)?;
    Ok(layout::used_length(&job, &places))
}

/// A piece and the place that it would be moved to.
#[derive(Clone, Copy)]
pub struct Move {
    pub piece: usize,
    pub turn: u16,
    pub x: u16,
    pub y: u16,
}

/// The weighted sum and the used length of a layout.
#[derive(Clone, Copy, Debug, PartialEq, Eq)]
pub struct Figures {
    pub sum: u64,
    pub length: usize,
}

/// What a call that would place a piece in a turn is lent, and that turn: causes 8, 7, 2, 9 and 10 of the layout.
fn placing(
    lent: &Lent,
    given: Weighted,
    piece: usize,
    degrees: u16,
) -> Result<(Job, Vec<u16>, Turn, Vec<Placement>), Refusal> {
    let job = lent.job()?;
    let weights = given.weights(&job)?;
    let piece = job.pieces.get(piece).ok_or(Cause::NoPiece)?;
    let turn = piece.turn_of(usize::from(degrees)).ok_or(Cause::Turn)?;
    let places = placements(&job, given.layout)?;
    Ok((job, weights, turn, places))
}

/// The figures of the layout with one piece moved, which is made on a copy.
pub fn preview(lent: &Lent, given: Weighted, to: Move) -> Result<Figures, Refusal> {
    let (job, weights, turn, mut places) = placing(lent, given, to.piece, to.turn)?;
    let [x, y] = [to.x, to.y].map(usize::from);
    let place = Placement { turn, x, y };
    require(
        inside(&job, &job.pieces[to.piece], &place),
        Cause::NewOutside,
    )?;
    places[to.piece] = place;
    let length = layout::used_length(&job, &places);
    let sum = Search::new(&job, places, &weights).weighted_sum();
    Ok(Figures { sum, length })
}

/// Passes a layout in which no two pieces conflict.
pub fn check(lent: &Lent, layout: &[[u16; 3]]) -> Result<(), Refusal> {
    checked(lent, layout, || Ok(())).map(|_| ())
}

/// The placements of a layout that passes the check; the causes of `own` come after 7.
pub(super) fn checked(
    lent: &Lent,
    layout: &[[u16; 3]],
    own: impl Fn() -> Result<(), Refusal>,
) -> Result<(Job, Vec<Placement>), Refusal> {
    let (job, places) = asked(lent, layout, own)?;
    apart(&job, &places)?;
    Ok((job, places))
}

/// Cause 12: two pieces conflict.
fn apart(job: &Job, places: &[Placement]) -> Result<(), Refusal> {
    // The pieces that come within the gap of each sheet pixel are told by painting them wide; of all pairs of such a piece and a later
    // one that has the pixel the lowest is named.
    let mut near: Vec<Vec<usize>> = vec![Vec::new(); job.rows * job.columns];
    let mut lowest = None;
    for (number, (piece, place)) in job.pieces.iter().zip(places).enumerate() {
        let shape = piece.shape.turned(place.turn);
        for (x, y) in shape.pixels() {
            let cell = &near[(place.y + y) * job.columns + place.x + x];
            let met = cell.iter().map(|&other| [other, number]).min();
            lowest = [lowest, met].into_iter().flatten().min();
        }
        for (x, y) in shape.widened(job.gap).pixels() {
            // The widened box begins a gap before the corner; where it leaves the sheet there are no pixels to be near to.
            let cell = [place.x + x, place.y + y].map(|end| end.checked_sub(job.gap));
            if let [Some(x), Some(y)] = cell {
                if x < job.columns && y < job.rows {
                    near[y * job.columns + x].push(number);
                }
            }
        }
    }
    match lowest {
        None => Ok(()),
        Some(places) => Err(Refusal {
            cause: Cause::Conflict,
            places,
        }),
    }
}

/// Fills the start layout; the entries of locked pieces are the placements that they keep, the others are not read.
pub fn start(lent: &Lent, layout: &mut [[u16; 3]]) -> Result<(), Refusal> {
    let job = lent.job()?;
    require(layout.len() == lent.count, Cause::LayoutLength)?;
    let locked = || (0..lent.count).filter(|&index| job.pieces[index].locked);
    let turn = |index: usize| job.pieces[index].turn_of(usize::from(layout[index][0]));
    require(
        locked().all(|index| turn(index).is_some()),
        Cause::LockedTurn,
    )?;
    let given = |index: usize| {
        let [_, x, y] = layout[index].map(usize::from);
        let turn = turn(index).expect("the turns of locked pieces are allowed");
        Placement { turn, x, y }
    };
    let is_inside = |index: usize| inside(&job, &job.pieces[index], &given(index));
    require(locked().all(is_inside), Cause::LockedOutside)?;
    let places = layout::start(&job, given);
    write_placements(layout, &places);
    Ok(())
}

/// Compacts a layout that passes the check.
pub fn compact(lent: &Lent, layout: &mut [[u16; 3]]) -> Result<Compacted, Refusal> {
    let (job, mut places) = checked(lent, layout, || Ok(()))?;
    let compacted = compact::compact(&job, &mut places);
    write_placements(layout, &places);
    Ok(compacted)
}

/// A line on which a piece is searched a place.
#[derive(Clone, Copy)]
pub struct Line {
    pub piece: usize,
    pub turn: u16,
    pub vertical: bool,
    pub held: u16,
}

/// The least sum of a piece's pairs on a line, and the smallest coordinate that has it.
pub fn line_search(lent: &Lent, given: Weighted, line: Line) -> Result<LinePlace, Refusal> {
    let (job, weights, turn, places) = placing(lent, given, line.piece, line.turn)?;
    let direction = Direction::ALL[usize::from(line.vertical)];
    let mut search = Search::new(&job, places, &weights);
    let found = search.line_search(line.piece, turn, direction, usize::from(line.held));
    found.ok_or(Cause::NoPlace.into())
}

/// What a descent gives: its end as the interface numbers it, sum, trials and moves.
#[derive(Clone, Copy, Debug, PartialEq, Eq)]
pub struct Ended {
    pub end: u8,
    pub sum: u64,
    pub trials: u64,
    pub moves: u64,
}

/// Runs a descent; the layout becomes the one at its end.
pub fn descent(
    lent: &Lent,
    layout: &mut [[u16; 3]],
    weights: &[u32],
    budget: u32,
) -> Result<Ended, Refusal> {
    let job = lent.job()?;
    let given = Weighted { layout, weights };
    let weights = given.weights(&job)?;
    require(budget <= MAX_BUDGET, Cause::Budget)?;
    let places = placements(&job, layout)?;
    let mut search = Search::new(&job, places, &weights);
    let Descent {
        end,
        sum,
        trials,
        moves,
    } = search.descent(u64::from(budget));
    write_placements(layout, search.layout());
    let end = match end {
        End::Clear => 0,
        End::Settled => 1,
        End::Spent => 2,
    };
    Ok(Ended {
        end,
        sum,
        trials,
        moves,
    })
}

/// What a guided run gives: the best layout's plain sum, trials and moves.
#[derive(Clone, Copy, Debug, PartialEq, Eq)]
pub struct Run {
    pub sum: u64,
    pub trials: u64,
    pub moves: u64,
}

/// Makes a guided run; the layout becomes the best one and the weights the new ones.
pub fn guided_run(
    lent: &Lent,
    layout: &mut [[u16; 3]],
    weights: &mut [u32],
    rounds: u32,
    budget: u32,
) -> Result<Run, Refusal> {
    let job = lent.job()?;
    let begun = Weighted { layout, weights }.weights(&job)?;
    require(budget <= MAX_BUDGET, Cause::Budget)?;
    require((1..=MAX_ROUNDS).contains(&rounds), Cause::Rounds)?;
    let places = placements(&job, layout)?;
    let search = Search::new(&job, places, &begun);
    let guided = search.guided_run(rounds as usize, u64::from(budget));
    write_placements(layout, &guided.best);
    for (weight, &new) in weights.iter_mut().zip(&guided.weights) {
        *weight = u32::from(new);
    }
    Ok(Run {
        sum: guided.plain_sum,
        trials: guided.trials,
        moves: guided.moves,
    })
}
