//! Line search, descent and guided local search.

use crate::job::Job;
use crate::layout::Placement;
use crate::penalty::PenaltyMaps;
use crate::shape::{Direction, Turn};

/// One number a pair of pieces, kept for both orders of the pair.
struct PairTable {
    count: usize,
    cells: Vec<u16>,
}

impl PairTable {
    /// A table of zeros.
    fn new(count: usize) -> PairTable {
        PairTable {
            count,
            cells: vec![0; count * count],
        }
    }

    /// The number of a pair.
    fn get(&self, i: usize, j: usize) -> u16 {
        self.cells[i * self.count + j]
    }

    /// Sets the number of a pair.
    fn set(&mut self, i: usize, j: usize, value: u16) {
        self.cells[i * self.count + j] = value;
        self.cells[j * self.count + i] = value;
    }

    /// The numbers of one piece with every piece.
    fn row(&self, i: usize) -> &[u16] {
        &self.cells[i * self.count..][..self.count]
    }
}

/// A trial of a descent.
#[derive(Clone, Copy)]
struct Trial {
    piece: usize,
    turn: Turn,
    direction: Direction,
}

/// The best place of a line.
#[derive(Clone, Copy, Debug, PartialEq, Eq)]
pub struct LinePlace {
    /// The least weighted sum of the piece's pairs.
    pub sum: u64,
    /// The smallest coordinate that has it.
    pub coordinate: usize,
}

/// The cause that ends a descent.
#[derive(Clone, Copy, Debug, PartialEq, Eq)]
pub enum End {
    /// The sum is zero.
    Clear,
    /// Every trial in turn was no move; where all pieces are locked there is none.
    Settled,
    /// The budget is used up.
    Spent,
}

/// The result of a descent, beside the layout that the search holds.
#[derive(Clone, Copy, Debug, PartialEq, Eq)]
pub struct Descent {
    pub end: End,
    pub sum: u64,
    pub trials: u64,
    pub moves: u64,
}

/// The result of a guided run.
#[derive(Clone, Debug, PartialEq, Eq)]
pub struct Guided {
    pub best: Vec<Placement>,
    pub plain_sum: u64,
    pub weights: Vec<u16>,
    pub trials: u64,
    pub moves: u64,
}

/// A layout under search, with the weights and penalties of its pairs.
pub struct Search<'a> {
    job: &'a Job,
    maps: PenaltyMaps,
    trials: Vec<Trial>,
    layout: Vec<Placement>,
    weights: PairTable,
    penalties: PairTable,
    /// For each piece the weighted sum of its pairs.
    piece_sums: Vec<u64>,
    line_sums: LineSums,
}

impl<'a> Search<'a> {
    /// Begins with a layout and one weight a pair, in the order (0,1), (0,2) and so on.
    pub fn new(job: &'a Job, layout: Vec<Placement>, weights: &[u16]) -> Search<'a> {
        let count = job.pieces.len();
        let mut search = Search {
            job,
            maps: PenaltyMaps::new(job),
            trials: all_trials(job),
            layout,
            weights: PairTable::new(count),
            penalties: PairTable::new(count),
            piece_sums: vec![0; count],
            line_sums: LineSums::default(),
        };
        for ((i, j), &weight) in pairs(count).zip(weights) {
            search.weights.set(i, j, weight);
            search.set_penalty(i, j);
        }
        search
    }

    /// The layout as it stands.
    pub fn layout(&self) -> &[Placement] {
        &self.layout
    }

    /// The weighted sum over all pairs.
    pub fn weighted_sum(&self) -> u64 {
        self.piece_sums.iter().sum::<u64>() / 2
    }

    /// The sum of penalties over all pairs.
    pub fn plain_sum(&self) -> u64 {
        self.penalties
            .cells
            .iter()
            .map(|&penalty| u64::from(penalty))
            .sum::<u64>()
            / 2
    }

    /// The least weighted sum of a piece's pairs over the inside places of a line.
    pub fn line_search(
        &mut self,
        piece: usize,
        turn: Turn,
        direction: Direction,
        held: usize,
    ) -> Option<LinePlace> {
        self.line_search_below(u64::MAX, piece, turn, direction, held)
    }

    /// The same, but only if the least sum is below a bound.
    fn line_search_below(
        &mut self,
        bound: u64,
        piece: usize,
        turn: Turn,
        direction: Direction,
        held: usize,
    ) -> Option<LinePlace> {
        let cross = direction.crossing();
        if held + self.maps.extent(piece, turn, cross) > self.sheet_extent(cross) {
            return None;
        }
        let free = self
            .sheet_extent(direction)
            .checked_sub(self.maps.extent(piece, turn, direction))?;
        self.line_sums.clear(free + 1);
        let weights = self.weights.row(piece);
        for (other, (&place, &weight)) in self.layout.iter().zip(weights).enumerate() {
            if other == piece {
                continue;
            }
            if let Some(line) = self.maps.line(piece, turn, direction, held, other, place) {
                self.line_sums
                    .add(line.low, line.penalties, line.backward, weight);
            }
        }
        self.line_sums.least_below(bound)
    }

    /// The extent of the sheet along a direction.
    fn sheet_extent(&self, direction: Direction) -> usize {
        match direction {
            Direction::Horizontal => self.job.columns,
            Direction::Vertical => self.job.rows,
        }
    }

    /// Tries the trials in turn until the layout is clear, settled or the budget is spent.
    pub fn descent(&mut self, budget: u64) -> Descent {
        let (mut trials, mut moves, mut quiet, mut next) = (0, 0, 0, 0);
        loop {
            let sum = self.weighted_sum();
            let end = if sum == 0 {
                End::Clear
            } else if quiet == self.trials.len() {
                End::Settled
            } else if trials == budget {
                End::Spent
            } else {
                let moved = self.take_trial(self.trials[next]);
                trials += 1;
                next = (next + 1) % self.trials.len();
                moves += u64::from(moved);
                quiet = if moved { 0 } else { quiet + 1 };
                continue;
            };
            return Descent {
                end,
                sum,
                trials,
                moves,
            };
        }
    }

    /// Takes one trial and says whether it was a move.
    fn take_trial(&mut self, trial: Trial) -> bool {
        let Trial {
            piece,
            turn,
            direction,
        } = trial;
        let present = self.piece_sums[piece];
        // No place has a sum below zero, so a piece without conflict needs no search.
        if present == 0 {
            return false;
        }
        let held = self.layout[piece].along(direction.crossing());
        let Some(best) = self.line_search_below(present, piece, turn, direction, held) else {
            return false;
        };
        let place = &mut self.layout[piece];
        place.turn = turn;
        match direction {
            Direction::Horizontal => place.x = best.coordinate,
            Direction::Vertical => place.y = best.coordinate,
        }
        for other in (0..self.layout.len()).filter(|&other| other != piece) {
            self.set_penalty(piece, other);
        }
        true
    }

    /// Measures the penalty of a pair again and carries it into the sums of both pieces.
    fn set_penalty(&mut self, i: usize, j: usize) {
        let weight = u64::from(self.weights.get(i, j));
        let old = self.penalties.get(i, j);
        let new = u16::from(self.maps.penalty(i, self.layout[i], j, self.layout[j]));
        self.penalties.set(i, j, new);
        for piece in [i, j] {
            self.piece_sums[piece] += weight * u64::from(new);
            self.piece_sums[piece] -= weight * u64::from(old);
        }
    }

    /// Repeats the descent and raises the weights of conflicting pairs between the rounds.
    pub fn guided_run(mut self, rounds: usize, budget: u64) -> Guided {
        let mut best = self.layout.clone();
        let mut plain_sum = self.plain_sum();
        let (mut trials, mut moves) = (0, 0);
        for _ in 0..rounds {
            let round = self.descent(budget);
            trials += round.trials;
            moves += round.moves;
            if self.plain_sum() < plain_sum {
                plain_sum = self.plain_sum();
                best.clone_from(&self.layout);
            }
            if round.end == End::Clear {
                break;
            }
            self.raise_weights();
        }
        let weight = |(i, j)| self.weights.get(i, j);
        let weights = pairs(self.layout.len()).map(weight).collect();
        Guided {
            best,
            plain_sum,
            weights,
            trials,
            moves,
        }
    }

    /// Raises the weight of each pair that conflicts by 1; the largest weight, 65,535, stays.
    fn raise_weights(&mut self) {
        for (i, j) in pairs(self.layout.len()) {
            let penalty = self.penalties.get(i, j);
            let weight = self.weights.get(i, j);
            // A pair conflicts exactly when its penalty is not zero.
            if penalty == 0 || weight == u16::MAX {
                continue;
            }
            self.weights.set(i, j, weight + 1);
            self.piece_sums[i] += u64::from(penalty);
            self.piece_sums[j] += u64::from(penalty);
        }
    }
}

/// All trials of a job in their order; a locked piece has none.
fn all_trials(job: &Job) -> Vec<Trial> {
    let mut trials = Vec::new();
    let pieces = job.pieces.iter().enumerate();
    for (piece, entry) in pieces.filter(|(_, entry)| !entry.locked) {
        for turn in entry.turns() {
            trials.extend(Direction::ALL.map(|direction| Trial {
                piece,
                turn,
                direction,
            }));
        }
    }
    trials
}

/// All pairs of `count` pieces in the order (0,1), (0,2) and so on.
fn pairs(count: usize) -> impl Iterator<Item = (usize, usize)> {
    (0..count).flat_map(move |i| (i + 1..count).map(move |j| (i, j)))
}

/// The weighted sums of a piece's pairs at all places of a line.
///
/// Penalties that stand against the order of the coordinates are added to a second list that runs
/// backward, so that every addition goes upward in memory. A sum has at most 63 terms of at most
/// 65,535 x 255, which fits 32 bits.
#[derive(Default)]
struct LineSums {
    forward: Vec<u32>,
    backward: Vec<u32>,
}

impl LineSums {
    /// Sets the sums of a number of places to zero.
    fn clear(&mut self, places: usize) {
        for sums in [&mut self.forward, &mut self.backward] {
            sums.clear();
            sums.resize(places, 0);
        }
    }

    /// Adds a pair's weighted penalties, which belong to the coordinates from `low` on.
    fn add(&mut self, low: isize, penalties: &[u8], backward: bool, weight: u16) {
        let places = self.forward.len() as isize;
        let (sums, begin) = if backward {
            (&mut self.backward, places - low - penalties.len() as isize)
        } else {
            (&mut self.forward, low)
        };
        let end = (begin + penalties.len() as isize).min(places);
        let inside = begin.max(0);
        if inside >= end {
            return;
        }
        let penalties = &penalties[(inside - begin) as usize..];
        let sums = &mut sums[inside as usize..end as usize];
        for (sum, &penalty) in sums.iter_mut().zip(penalties) {
            *sum += u32::from(weight) * u32::from(penalty);
        }
    }

    /// The least sum and its smallest coordinate, if it is below the bound.
    fn least_below(&mut self, bound: u64) -> Option<LinePlace> {
        for (sum, other) in self.forward.iter_mut().zip(self.backward.iter().rev()) {
            *sum += other;
        }
        let least = *self.forward.iter().min()?;
        if u64::from(least) >= bound {
            return None;
        }
        let coordinate = self.forward.iter().position(|&sum| sum == least)?;
        let sum = u64::from(least);
        Some(LinePlace { sum, coordinate })
    }
}
