//! The second program's call on the caller's memory.

use second::calls::{self, Cause, Counts, Line, Move, Refusal, Weighted};
use second::cut::Step;

use crate::kind::Kind;
use crate::memory::{result, Memory};

/// What a call gives back: the reply's number and places, and the value of a function that replies none.
#[derive(Clone, Copy, Debug, Default, PartialEq, Eq)]
pub struct Returned {
    pub reply: [u32; 3],
    pub value: usize,
}

/// What a call has to give back, and the cause if it is refused.
#[derive(Clone, Copy, Debug)]
pub struct Expected {
    pub returned: Returned,
    pub cause: Option<Cause>,
}

/// The reply of a call.
fn reply(outcome: Result<(), Refusal>) -> Expected {
    let Err(Refusal { cause, places }) = outcome else {
        return Expected {
            returned: Returned::default(),
            cause: None,
        };
    };
    let [first, second] = places.map(|place| place as u32);
    let reply = [cause.number(), first, second];
    Expected {
        returned: Returned { reply, value: 0 },
        cause: Some(cause),
    }
}

/// Makes the second program's call; the memory becomes what it has to be after the call.
pub fn call(kind: Kind, memory: &mut Memory) -> Expected {
    match kind {
        Kind::Stretch => stretch(memory),
        Kind::StretchRefusal => stretch_refusal(memory),
        Kind::Program => reply(program(memory)),
        Kind::ReadJob => reply(read_job(memory)),
        Kind::SetLock => reply(set_lock(memory)),
        Kind::Strips | Kind::Rebuild => reply(strips(kind, memory)),
        Kind::NoFitRow | Kind::NoFitColumn => reply(no_fit(kind, memory)),
        Kind::SharesPixel | Kind::Depth | Kind::Penalty => reply(pair(kind, memory)),
        Kind::WeightedSum | Kind::PlainSum | Kind::UsedLength | Kind::Check => {
            reply(measure(kind, memory))
        }
        Kind::Preview => reply(preview(memory)),
        Kind::CutLines => reply(cut_lines(memory)),
        Kind::CutStep | Kind::LineStep => reply(step(kind, memory)),
        Kind::Start | Kind::WriteLayout | Kind::ReadLayout => reply(write(kind, memory)),
        Kind::Compact => reply(compact(memory)),
        Kind::LineSearch => reply(line_search(memory)),
        Kind::Descent => reply(descent(memory)),
        Kind::GuidedRun => reply(guided_run(memory)),
        Kind::Fresh | Kind::Lay | Kind::Withdraw => reply(sheet(kind, memory)),
    }
}

/// Reads a job.
fn read_job(memory: &mut Memory) -> Result<(), Refusal> {
    let (table, pixels) = (memory.table.get_mut(), memory.pixels.get_mut());
    let numbers = calls::read_job(memory.text.get(), table, pixels)?;
    for (place, number) in numbers.into_iter().enumerate() {
        memory.sizes.get_mut()[result(place)] = number;
    }
    Ok(())
}

/// Sets a lock.
fn set_lock(memory: &mut Memory) -> Result<(), Refusal> {
    let (piece, station) = (memory.numbers.i, memory.numbers.station);
    let entry = calls::set_lock(&memory.job(), piece, station)?;
    memory.table.get_mut()[piece] = entry;
    Ok(())
}

/// Fills the stores of strips, or rebuilds a piece.
fn strips(kind: Kind, memory: &mut Memory) -> Result<(), Refusal> {
    let numbers = memory.numbers;
    if kind == Kind::Rebuild {
        return calls::rebuild(
            numbers.box_columns,
            numbers.box_rows,
            numbers.vertical != 0,
            memory.row_strips.get(),
            memory.output.get_mut(),
        );
    }
    let mut after = memory.clone();
    let stores = [
        (after.row_strips.get_mut(), after.row_starts.get_mut()),
        (after.column_strips.get_mut(), after.column_starts.get_mut()),
    ];
    calls::strips(&memory.job(), memory.turns.get(), stores)?;
    *memory = after;
    Ok(())
}

/// The stretch of a piece, as both calls about it see it.
fn stretch_range(memory: &Memory) -> Result<std::ops::Range<usize>, Refusal> {
    let stores = [
        (memory.row_strips.get(), memory.row_starts.get()),
        (memory.column_strips.get(), memory.column_starts.get()),
    ];
    let numbers = &memory.numbers;
    calls::stretch(
        &memory.job(),
        memory.turns.get(),
        stores,
        numbers.i,
        numbers.vertical != 0,
    )
}

/// The stretch of a piece: how many strips, and where they begin.
fn stretch(memory: &mut Memory) -> Expected {
    let range = stretch_range(memory);
    let returned = Returned {
        value: range.as_ref().map_or(0, |range| range.len()),
        ..Returned::default()
    };
    if let Ok(range) = &range {
        memory.sizes.get_mut()[result(0)] = range.start;
    }
    let cause = range.err().map(|refusal| refusal.cause);
    Expected { returned, cause }
}

/// The number by which the stretch is refused.
fn stretch_refusal(memory: &Memory) -> Expected {
    let cause = stretch_range(memory).err().map(|refusal| refusal.cause);
    let returned = Returned {
        value: cause.map_or(0, Cause::number) as usize,
        ..Returned::default()
    };
    Expected { returned, cause }
}

/// A no-fit row or column.
fn no_fit(kind: Kind, memory: &mut Memory) -> Result<(), Refusal> {
    let mut runs = memory.runs.clone();
    let count = calls::no_fit_line(
        &memory.job(),
        memory.pair(),
        kind == Kind::NoFitColumn,
        memory.numbers.offset,
        runs.get_mut(),
    )?;
    memory.runs = runs;
    memory.sizes.get_mut()[result(0)] = count;
    Ok(())
}

/// Conflict, depth and penalty.
fn pair(kind: Kind, memory: &mut Memory) -> Result<(), Refusal> {
    let (job, layout, numbers) = (memory.job(), memory.layout.get(), memory.numbers);
    let (i, k) = (numbers.i, numbers.k);
    match kind {
        Kind::SharesPixel => {
            let shares = calls::shares_pixel(&job, layout, i, k)?;
            memory.bytes.get_mut()[result(0)] = u8::from(shares);
        }
        Kind::Depth => {
            let depth = calls::depth(&job, layout, i, k, numbers.vertical != 0)?;
            memory.halves.get_mut()[result(0)] = depth as u32;
        }
        _ => {
            let penalty = calls::penalty(&job, layout, i, k)?;
            memory.halves.get_mut()[result(0)] = penalty as u32;
        }
    }
    Ok(())
}

/// The sums, the used length and the check.
fn measure(kind: Kind, memory: &mut Memory) -> Result<(), Refusal> {
    let (job, layout) = (memory.job(), memory.layout.get());
    match kind {
        Kind::WeightedSum => {
            let sum = calls::weighted_sum(&job, weighted(memory))?;
            memory.words.get_mut()[result(0)] = sum;
        }
        Kind::PlainSum => {
            let sum = calls::plain_sum(&job, layout)?;
            memory.words.get_mut()[result(0)] = sum;
        }
        Kind::UsedLength => {
            let used = calls::used_length(&job, layout)?;
            memory.sizes.get_mut()[result(0)] = used;
        }
        _ => calls::check(&job, layout)?,
    }
    Ok(())
}

/// The layout with its weights.
fn weighted(memory: &Memory) -> Weighted<'_> {
    Weighted {
        layout: memory.layout.get(),
        weights: memory.weights.get(),
    }
}

/// The preview of a move.
fn preview(memory: &mut Memory) -> Result<(), Refusal> {
    let numbers = memory.numbers;
    let given = weighted(memory);
    let to = Move {
        piece: numbers.i,
        turn: numbers.turn,
        x: numbers.x,
        y: numbers.y,
    };
    let figures = calls::preview(&memory.job(), given, to)?;
    memory.words.get_mut()[result(0)] = figures.sum;
    memory.sizes.get_mut()[result(0)] = figures.length;
    Ok(())
}

/// The lines of a cut list.
fn cut_lines(memory: &mut Memory) -> Result<(), Refusal> {
    let mut lines = memory.cut_lines.clone();
    let count = calls::cut_lines(&memory.job(), memory.layout.get(), lines.get_mut())?;
    memory.cut_lines = lines;
    memory.sizes.get_mut()[result(0)] = count;
    Ok(())
}

/// A step of a cut list, of a layout or of lines; where the list is done no point is written.
fn step(kind: Kind, memory: &mut Memory) -> Result<(), Refusal> {
    let (pitch, number) = (memory.numbers.pitch, memory.numbers.step);
    let step = if kind == Kind::CutStep {
        calls::cut_step(&memory.job(), memory.layout.get(), pitch, number)?
    } else {
        calls::line_step(memory.cut_lines.get(), pitch, number)?
    };
    let (word, point) = match step {
        Step::Done => (0, None),
        Step::Lift(x, y) => (1, Some([x, y])),
        Step::Cut(x, y) => (2, Some([x, y])),
    };
    memory.bytes.get_mut()[result(0)] = word;
    for (place, number) in point.into_iter().flatten().enumerate() {
        memory.doubles.get_mut()[result(place)] = number.to_bits();
    }
    Ok(())
}

/// The start layout, and a layout read or written.
fn write(kind: Kind, memory: &mut Memory) -> Result<(), Refusal> {
    let mut layout = memory.layout.clone();
    match kind {
        Kind::Start => calls::start(&memory.job(), layout.get_mut())?,
        Kind::ReadLayout => {
            calls::read_layout(&memory.job(), memory.text.get(), layout.get_mut())?;
        }
        _ => {
            let mut output = memory.output.clone();
            let written = calls::write_layout(&memory.job(), layout.get(), output.get_mut())?;
            memory.output = output;
            memory.sizes.get_mut()[result(0)] = written;
        }
    }
    memory.layout = layout;
    Ok(())
}

/// A compaction.
fn compact(memory: &mut Memory) -> Result<(), Refusal> {
    let mut layout = memory.layout.clone();
    let compacted = calls::compact(&memory.job(), layout.get_mut())?;
    memory.layout = layout;
    memory.words.get_mut()[result(0)] = compacted.slid;
    Ok(())
}

/// A line search.
fn line_search(memory: &mut Memory) -> Result<(), Refusal> {
    let numbers = memory.numbers;
    let given = weighted(memory);
    let line = Line {
        piece: numbers.i,
        turn: numbers.turn,
        vertical: numbers.vertical != 0,
        held: numbers.held,
    };
    let found = calls::line_search(&memory.job(), given, line)?;
    memory.words.get_mut()[result(0)] = found.sum;
    memory.sizes.get_mut()[result(0)] = found.coordinate;
    Ok(())
}

/// A descent.
fn descent(memory: &mut Memory) -> Result<(), Refusal> {
    let mut layout = memory.layout.clone();
    let ended = calls::descent(
        &memory.job(),
        layout.get_mut(),
        memory.weights.get(),
        memory.numbers.budget,
    )?;
    memory.layout = layout;
    memory.bytes.get_mut()[result(0)] = ended.end;
    memory.words.get_mut()[result(0)] = ended.sum;
    memory.words.get_mut()[result(1)] = ended.trials;
    memory.words.get_mut()[result(2)] = ended.moves;
    Ok(())
}

/// A guided run.
fn guided_run(memory: &mut Memory) -> Result<(), Refusal> {
    let (mut layout, mut weights) = (memory.layout.clone(), memory.weights.clone());
    let run = calls::guided_run(
        &memory.job(),
        layout.get_mut(),
        weights.get_mut(),
        memory.numbers.rounds,
        memory.numbers.budget,
    )?;
    (memory.layout, memory.weights) = (layout, weights);
    for (place, number) in [run.sum, run.trials, run.moves].into_iter().enumerate() {
        memory.words.get_mut()[result(place)] = number;
    }
    Ok(())
}

/// The program.
fn program(memory: &mut Memory) -> Result<(), Refusal> {
    let written = calls::program(memory.text.get(), memory.output.get_mut())?;
    memory.sizes.get_mut()[result(0)] = written;
    Ok(())
}

/// Fresh, lay and withdraw.
fn sheet(kind: Kind, memory: &mut Memory) -> Result<(), Refusal> {
    let (mut record, mut counts) = (memory.record.clone(), memory.counts.clone());
    let (job, numbers) = (memory.job(), memory.numbers);
    let entries = record.get_mut().try_into();
    let sheet = Counts {
        record: entries.expect("a record has its length"),
        counts: counts.get_mut(),
    };
    match kind {
        Kind::Fresh => calls::fresh(&job, sheet)?,
        Kind::Lay => calls::lay(&job, sheet, numbers.i, [numbers.turn, numbers.x, numbers.y])?,
        _ => calls::withdraw(&job, sheet, numbers.i)?,
    }
    (memory.record, memory.counts) = (record, counts);
    Ok(())
}
