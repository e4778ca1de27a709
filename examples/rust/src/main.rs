//! Nests the pieces of a job round by round through the interface for C. Reads the job text from standard input, tells the progress on
//! standard error, at the end what moves by hand would come to, how the rest is laid anew once half of the layout is under the knife and,
//! where the layout is clear, how far it can be pushed left and down and the length of its cut list, and prints the best layout and how the
//! search ended, as the program `nest` does in one go.

use std::error::Error;
use std::io::{self, Read, Write};
use std::process::ExitCode;

use sigbrol::safe::{line_step, End, Job, Refused, Step};
use sigbrol::{Place, CUTTER, NOT_THE_CUTTER, PLANNER, TEXT, WORKSPACE};

const ROUNDS: usize = 20;
const BUDGET: u32 = 1_000;

/// Rounds in which the rest of a table that is half cut is laid anew.
const ROUNDS_OF_THE_REST: u32 = 3;

/// The side of a pixel in sixty-fourths of a millimetre: 1.5 mm.
const PITCH: u32 = 96;

fn main() -> ExitCode {
    match run() {
        Ok(()) => ExitCode::SUCCESS,
        Err(error) => {
            eprintln!("{error}");
            ExitCode::FAILURE
        }
    }
}

/// Reads the input and prints the output: the result of a job or the refusal of a text.
fn run() -> Result<(), Box<dyn Error>> {
    let mut text = Vec::new();
    // One byte more than a job text may have, so that a longer input is seen as such.
    let limit = TEXT as u64 + 1;
    io::stdin().lock().take(limit).read_to_end(&mut text)?;

    let output = if text.len() > TEXT {
        b"refused,7,0\n".to_vec()
    } else {
        match Job::read(&text) {
            Ok(job) => nest(&job).map_err(|refused| refused.to_string())?,
            Err(Refused(reply)) => {
                format!("refused,{},{}\n", reply.number, reply.first).into_bytes()
            }
        }
    };
    io::stdout().lock().write_all(&output)?;
    Ok(())
}

/// A weight of 1 for each pair of pieces.
fn unit_weights(job: &Job) -> Vec<u32> {
    vec![1; job.count() * (job.count() - 1) / 2]
}

/// The start layout. A job that is read with locks comes without placements: its locked pieces lie where a start of all pieces has them.
fn start(job: &Job) -> Result<Vec<Place>, Refused> {
    let mut layout = vec![[0; 3]; job.count()];
    job.with_all_free().start(&mut layout)?;
    job.start(&mut layout)?;
    Ok(layout)
}

/// What the search holds: the present layout and weights, the best layout so far with its plain sum, and the work of all rounds.
struct Search {
    layout: Vec<Place>,
    weights: Vec<u32>,
    best: Vec<Place>,
    best_sum: u64,
    trials: u64,
    moves: u64,
    /// Words for the descents to work in, round after round.
    workspace: Vec<u64>,
}

/// Runs the rounds from the start layout with unit weights and gives what is printed.
///
/// After a job has been read a refusal is a mistake of this program, such as a wrong length.
fn nest(job: &Job) -> Result<Vec<u8>, Refused> {
    let layout = start(job)?;
    let mut search = Search {
        weights: unit_weights(job),
        best: layout.clone(),
        best_sum: job.plain_sum(&layout)?,
        layout,
        trials: 0,
        moves: 0,
        workspace: vec![0; WORKSPACE],
    };
    for number in 1..=ROUNDS {
        if search.round(job, number)? == End::Clear {
            break;
        }
        search.raise_weights(job)?;
    }
    search.output(job)
}

impl Search {
    /// One round: a descent from the present layout, the best layout kept. Gives how the descent ended.
    fn round(&mut self, job: &Job, number: usize) -> Result<End, Refused> {
        let descent = job.descent(&mut self.layout, &self.weights, BUDGET, &mut self.workspace)?;
        self.trials += descent.trials;
        self.moves += descent.moves;

        let sum = job.plain_sum(&self.layout)?;
        if sum < self.best_sum {
            self.best_sum = sum;
            self.best.clone_from(&self.layout);
        }
        let name = match descent.end {
            End::Clear => "clear",
            End::Settled => "settled",
            End::Spent => "spent",
        };
        eprintln!(
            "round {number}: {name}, weighted sum {}, plain sum {sum}, {} trials, {} moves",
            descent.sum, descent.trials, descent.moves
        );
        Ok(descent.end)
    }

    /// Raises the weight of each pair that conflicts by 1; the largest weight, 65,535, stays.
    fn raise_weights(&mut self, job: &Job) -> Result<(), Refused> {
        let count = job.count();
        let pairs = (0..count).flat_map(|i| (i + 1..count).map(move |k| (i, k)));
        for ((i, k), weight) in pairs.zip(&mut self.weights) {
            // Boxes lie further apart than the gap mostly, which spares most of the calls.
            if job.boxes_meet(&self.layout, i, k) && job.shares_pixel(&self.layout, i, k)? {
                *weight = (*weight + 1).min(65_535);
            }
        }
        Ok(())
    }

    /// The best layout's text and the last line. A layout that is called clear has passed the check before.
    fn output(&mut self, job: &Job) -> Result<Vec<u8>, Refused> {
        let used = job.used_length(&self.best)?;
        self.tell_moves(job, used)?;
        self.tell_half_cut(job, used)?;
        let word = if self.best_sum == 0 {
            job.check(&self.best)?;
            tell_compaction(job, &self.best, used)?;
            tell_cut_list(job, &self.best)?;
            "clear"
        } else {
            "open"
        };
        let mut output = job.write_layout(&self.best)?;
        let last = format!(
            "end,{word},{},{},{},{used}\n",
            self.best_sum, self.trials, self.moves
        );
        output.extend(last.bytes());
        Ok(output)
    }

    /// Tells how many pieces of the best layout could be dragged one column to the left, each alone, at no higher plain sum, and the
    /// least used length after such a move or none. Nothing is moved.
    fn tell_moves(&self, job: &Job, used: usize) -> Result<(), Refused> {
        let weights = unit_weights(job);
        let (mut pieces, mut least) = (0, used);
        for (piece, &[turn, x, y]) in self.best.iter().enumerate() {
            if x == 0 {
                continue;
            }
            let moved = job.preview(&self.best, &weights, piece, [turn, x - 1, y])?;
            if moved.sum <= self.best_sum {
                pieces += 1;
                least = least.min(moved.used);
            }
        }
        let count = job.count();
        eprintln!("preview: {pieces} of {count} pieces can go one column left, used length {least} at best");
        Ok(())
    }

    /// Tells how the rest is laid anew once the knife is at the middle of the used length: the pieces that begin left of it are locked from the
    /// cutter's station, in a copy of the job, the free ones are stacked anew, and a guided run finds places for them. The planner's station
    /// cannot lock, and what is locked stays where it lies.
    fn tell_half_cut(&mut self, job: &Job, used: usize) -> Result<(), Refused> {
        let mut job = job.clone();
        let first = self.best.iter().map(|&[_, x, _]| usize::from(x)).min();
        let knife = first.unwrap_or(0) + used.div_ceil(2);
        for (piece, &[_, x, _]) in self.best.iter().enumerate() {
            if usize::from(x) < knife {
                let planner = job.set_lock(piece, PLANNER).err();
                assert_eq!(
                    planner.map(|Refused(reply)| reply.number),
                    Some(NOT_THE_CUTTER)
                );
                job.set_lock(piece, CUTTER)?;
            }
        }
        let mut layout = self.best.clone();
        job.start(&mut layout)?;
        let (mut weights, words) = (unit_weights(&job), &mut self.workspace);
        let run = job.guided_run(&mut layout, &mut weights, ROUNDS_OF_THE_REST, BUDGET, words)?;

        let locked: Vec<usize> = (0..job.count())
            .filter(|&piece| job.is_locked(piece))
            .collect();
        assert!(locked
            .iter()
            .all(|&piece| layout[piece] == self.best[piece]));
        eprintln!(
            "half cut: {} of {} pieces locked, the rest laid anew: plain sum {}, {} trials, {} moves, used length {}",
            locked.len(),
            job.count(),
            run.sum,
            run.trials,
            run.moves,
            job.used_length(&layout)?
        );
        Ok(())
    }
}

/// Tells how many pixels the pieces of a clear layout slide when everything is pushed left and down, on a copy, and the used length before and
/// after. What is pushed together passes the check too.
fn tell_compaction(job: &Job, layout: &[Place], used: usize) -> Result<(), Refused> {
    let mut pushed = layout.to_vec();
    let slid = job.compact(&mut pushed)?;
    job.check(&pushed)?;
    let pushed_used = job.used_length(&pushed)?;
    eprintln!("compaction: {slid} pixels slid, used length {used} before, {pushed_used} after");
    Ok(())
}

/// Tells how many lines the knife follows and how long they are together, step by step. A coordinate is a multiple of 1/64 mm, so that
/// the sum is exact.
fn tell_cut_list(job: &Job, layout: &[Place]) -> Result<(), Refused> {
    let lines = job.cut_lines(layout)?;
    let (mut from_x, mut from_y, mut length) = (0.0, 0.0, 0.0);
    for step in 0.. {
        match line_step(&lines, PITCH, step)? {
            Step::Lift(x, y) => (from_x, from_y) = (x, y),
            // One of the two is 0.
            Step::Cut(x, y) => length += (x - from_x) + (y - from_y),
            Step::Done => break,
        }
    }
    eprintln!("cut list: {} lines, {length} mm", lines.len());
    Ok(())
}
