//! Nesting of pieces on a pixel sheet, as document 01 lays it down and document 02 changes it.
//!
//! `job` reads the job text, `shape` turns pieces and makes strips, `nofit` finds the offsets at
//! which two pieces overlap, `penalty` turns these into penalty maps, `search` moves the pieces,
//! `layout` makes the start layout and the layout text, `compact` slides the pieces of a clear layout
//! together, and `cut` makes the cut list. `calls` has the calls over lent buffers with their refusals,
//! and `inputs` makes what other programs are compared on.

pub mod calls;
pub mod compact;
pub mod cut;
pub mod inputs;
pub mod job;
pub mod layout;
pub mod nofit;
pub mod penalty;
pub mod search;
pub mod shape;

use job::{Job, Refusal};
use search::Search;

/// The largest input in bytes that is read as a job text.
pub const MAX_INPUT: usize = 65_536;

/// Rounds of the program's guided run.
const ROUNDS: usize = 20;

/// Trials that each round of the program may take.
const BUDGET: u64 = 1_000;

/// The whole output of the program for an input.
pub fn run(input: &[u8]) -> String {
    match read(input) {
        Ok(job) => nest(&job),
        Err(refusal) => format!("refused,{},{}\n", refusal.number, refusal.line),
    }
}

/// Reads the input as a job unless it is too long.
fn read(input: &[u8]) -> Result<Job, Refusal> {
    if input.len() > MAX_INPUT {
        return Err(Refusal { number: 7, line: 0 });
    }
    job::read(input)
}

/// Runs the guided search from the start layout and writes its result.
fn nest(job: &Job) -> String {
    let start = layout::own_start(job);
    let unit_weights = vec![1; job.pair_count()];
    let guided = Search::new(job, start, &unit_weights).guided_run(ROUNDS, BUDGET);
    let word = if guided.plain_sum == 0 {
        "clear"
    } else {
        "open"
    };
    format!(
        "{}end,{},{},{},{},{}\n",
        layout::text(job, &guided.best),
        word,
        guided.plain_sum,
        guided.trials,
        guided.moves,
        layout::used_length(job, &guided.best),
    )
}
