//! The archive's side: every function of include/sigbrol.h called on a caller's memory.

use std::ptr;

use calls::expected::Returned;
use calls::guarded::{Cell, Guarded};
use calls::kind::Kind;
use calls::memory::{result, Memory};
use sigbrol::*;

/// Calls a function that is lent the job, with further arguments.
macro_rules! lend {
    ($memory:ident, $function:ident $(, $argument:expr)*) => {
        $function(
            $memory.rows,
            $memory.columns,
            $memory.count,
            $memory.gap,
            at(&$memory.table),
            $memory.table.length(),
            at(&$memory.pixels),
            $memory.pixels.length(),
            $($argument),*
        )
    };
}

/// Where a buffer is that a function reads. An empty one is lent as a null pointer, since nothing has to be behind it.
fn at<T: Cell>(buffer: &Guarded<T>) -> *const T {
    match buffer.length() {
        0 => ptr::null(),
        _ => buffer.get().as_ptr(),
    }
}

/// Where a buffer is that a function writes, likewise.
fn at_mut<T: Cell>(buffer: &mut Guarded<T>) -> *mut T {
    match buffer.length() {
        0 => ptr::null_mut(),
        _ => buffer.get_mut().as_mut_ptr(),
    }
}

/// Where a result is written.
macro_rules! to {
    ($buffer:expr, $number:expr) => {
        &mut $buffer.get_mut()[result($number)] as *mut _
    };
}

/// Makes the archive's call.
pub fn call(kind: Kind, memory: &mut Memory) -> Returned {
    // Every pointer is that of a buffer of the given length, and the buffers are apart from one another, as the header asks.
    unsafe {
        match kind {
            Kind::Stretch => value(stretch(memory)),
            Kind::StretchRefusal => value(stretch_refusal(memory) as usize),
            Kind::Program => reply(program(memory)),
            Kind::ReadJob => reply(read_job(memory)),
            Kind::SetLock => reply(set_lock(memory)),
            Kind::Strips => reply(strips(memory)),
            Kind::Rebuild => reply(rebuild(memory)),
            Kind::NoFitRow | Kind::NoFitColumn => reply(no_fit(kind, memory)),
            Kind::SharesPixel | Kind::Depth | Kind::Penalty => reply(pair(kind, memory)),
            Kind::WeightedSum | Kind::PlainSum | Kind::UsedLength | Kind::Check => {
                reply(measure(kind, memory))
            }
            Kind::Preview => reply(preview(memory)),
            Kind::CutLines => reply(cut_lines(memory)),
            Kind::CutStep => reply(cut_step(memory)),
            Kind::LineStep => reply(line_step(memory)),
            Kind::Start | Kind::WriteLayout | Kind::ReadLayout => reply(text(kind, memory)),
            Kind::Compact => reply(compact(memory)),
            Kind::LineSearch => reply(line_search(memory)),
            Kind::Descent => reply(descent(memory)),
            Kind::GuidedRun => reply(guided_run(memory)),
            Kind::Fresh | Kind::Lay | Kind::Withdraw => reply(sheet(kind, memory)),
        }
    }
}

/// A reply and no value.
fn reply(reply: Reply) -> Returned {
    Returned {
        reply: [reply.number, reply.first, reply.second],
        value: 0,
    }
}

/// A value and no reply.
fn value(value: usize) -> Returned {
    let reply = [0; 3];
    Returned { reply, value }
}

/// Reads a job.
unsafe fn read_job(memory: &mut Memory) -> Reply {
    let (text, text_length) = (at(&memory.text), memory.text.length());
    let (table, table_length) = (at_mut(&mut memory.table), memory.table.length());
    let (pixels, pixels_length) = (at_mut(&mut memory.pixels), memory.pixels.length());
    let rows = to!(memory.sizes, 0);
    let columns = to!(memory.sizes, 1);
    let count = to!(memory.sizes, 2);
    let gap = to!(memory.sizes, 3);
    sigbrol_read_job(
        text,
        text_length,
        table,
        table_length,
        pixels,
        pixels_length,
        rows,
        columns,
        count,
        gap,
    )
}

/// Sets a lock.
unsafe fn set_lock(memory: &mut Memory) -> Reply {
    let (table, table_length) = (at_mut(&mut memory.table), memory.table.length());
    sigbrol_set_lock(
        memory.rows,
        memory.columns,
        memory.count,
        memory.gap,
        table,
        table_length,
        at(&memory.pixels),
        memory.pixels.length(),
        memory.numbers.i,
        memory.numbers.station,
    )
}

/// Fills the stores of strips.
unsafe fn strips(memory: &mut Memory) -> Reply {
    let (turns, turns_length) = (at(&memory.turns), memory.turns.length());
    let (row_strips, row_strips_length) =
        (at_mut(&mut memory.row_strips), memory.row_strips.length());
    let (row_starts, row_starts_length) =
        (at_mut(&mut memory.row_starts), memory.row_starts.length());
    let (column_strips, column_strips_length) = (
        at_mut(&mut memory.column_strips),
        memory.column_strips.length(),
    );
    let (column_starts, column_starts_length) = (
        at_mut(&mut memory.column_starts),
        memory.column_starts.length(),
    );
    lend!(
        memory,
        sigbrol_strips,
        turns,
        turns_length,
        row_strips,
        row_strips_length,
        row_starts,
        row_starts_length,
        column_strips,
        column_strips_length,
        column_starts,
        column_starts_length
    )
}

/// The stretch of a piece.
unsafe fn stretch(memory: &mut Memory) -> usize {
    let first = to!(memory.sizes, 0);
    lend!(
        memory,
        sigbrol_stretch,
        at(&memory.turns),
        memory.turns.length(),
        at(&memory.row_strips),
        memory.row_strips.length(),
        at(&memory.row_starts),
        memory.row_starts.length(),
        at(&memory.column_strips),
        memory.column_strips.length(),
        at(&memory.column_starts),
        memory.column_starts.length(),
        memory.numbers.i,
        memory.numbers.vertical,
        first
    )
}

/// The number by which the stretch is refused.
unsafe fn stretch_refusal(memory: &Memory) -> u32 {
    lend!(
        memory,
        sigbrol_stretch_refusal,
        at(&memory.turns),
        memory.turns.length(),
        at(&memory.row_strips),
        memory.row_strips.length(),
        at(&memory.row_starts),
        memory.row_starts.length(),
        at(&memory.column_strips),
        memory.column_strips.length(),
        at(&memory.column_starts),
        memory.column_starts.length(),
        memory.numbers.i,
        memory.numbers.vertical
    )
}

/// Rebuilds a piece.
unsafe fn rebuild(memory: &mut Memory) -> Reply {
    let numbers = memory.numbers;
    let (strips, strips_length) = (at(&memory.row_strips), memory.row_strips.length());
    let (pixels, pixels_length) = (at_mut(&mut memory.output), memory.output.length());
    sigbrol_rebuild(
        numbers.box_rows,
        numbers.box_columns,
        numbers.vertical,
        strips,
        strips_length,
        pixels,
        pixels_length,
    )
}

/// A no-fit row or column.
unsafe fn no_fit(kind: Kind, memory: &mut Memory) -> Reply {
    let function = if kind == Kind::NoFitRow {
        sigbrol_no_fit_row
    } else {
        sigbrol_no_fit_column
    };
    let (runs, runs_length) = (at_mut(&mut memory.runs), memory.runs.length());
    let runs_count = to!(memory.sizes, 0);
    let numbers = memory.numbers;
    lend!(
        memory,
        function,
        numbers.i,
        numbers.turn,
        at(&memory.row_strips),
        memory.row_strips.length(),
        numbers.k,
        numbers.k_turn,
        at(&memory.column_strips),
        memory.column_strips.length(),
        numbers.offset,
        runs,
        runs_length,
        runs_count
    )
}

/// Conflict, depth and penalty.
unsafe fn pair(kind: Kind, memory: &mut Memory) -> Reply {
    let (layout, length) = (at(&memory.layout), memory.layout.length());
    let numbers = memory.numbers;
    let (i, k) = (numbers.i, numbers.k);
    let (byte, half) = (to!(memory.bytes, 0), to!(memory.halves, 0));
    match kind {
        Kind::SharesPixel => lend!(memory, sigbrol_shares_pixel, layout, length, i, k, byte),
        Kind::Depth => {
            let vertical = numbers.vertical;
            lend!(memory, sigbrol_depth, layout, length, i, k, vertical, half)
        }
        _ => lend!(memory, sigbrol_penalty, layout, length, i, k, half),
    }
}

/// The sums, the used length and the check.
unsafe fn measure(kind: Kind, memory: &mut Memory) -> Reply {
    let (layout, length) = (at(&memory.layout), memory.layout.length());
    let (weights, weights_length) = (at(&memory.weights), memory.weights.length());
    let (sum, used) = (to!(memory.words, 0), to!(memory.sizes, 0));
    match kind {
        Kind::WeightedSum => lend!(
            memory,
            sigbrol_weighted_sum,
            layout,
            length,
            weights,
            weights_length,
            sum
        ),
        Kind::PlainSum => lend!(memory, sigbrol_plain_sum, layout, length, sum),
        Kind::UsedLength => lend!(memory, sigbrol_used_length, layout, length, used),
        _ => lend!(memory, sigbrol_check, layout, length),
    }
}

/// The preview of a move.
unsafe fn preview(memory: &mut Memory) -> Reply {
    let (layout, length) = (at(&memory.layout), memory.layout.length());
    let (weights, weights_length) = (at(&memory.weights), memory.weights.length());
    let (sum, used) = (to!(memory.words, 0), to!(memory.sizes, 0));
    let numbers = memory.numbers;
    lend!(
        memory,
        sigbrol_preview,
        layout,
        length,
        weights,
        weights_length,
        numbers.i,
        numbers.turn,
        numbers.x,
        numbers.y,
        sum,
        used
    )
}

/// The lines of a cut list.
unsafe fn cut_lines(memory: &mut Memory) -> Reply {
    let (layout, length) = (at(&memory.layout), memory.layout.length());
    let (lines, room) = (at_mut(&mut memory.cut_lines), memory.cut_lines.length());
    let count = to!(memory.sizes, 0);
    lend!(
        memory,
        sigbrol_cut_lines,
        layout,
        length,
        lines,
        room,
        count
    )
}

/// A step of the cut list of a layout.
unsafe fn cut_step(memory: &mut Memory) -> Reply {
    let (layout, length) = (at(&memory.layout), memory.layout.length());
    let (pitch, step) = (memory.numbers.pitch, memory.numbers.step);
    let word = to!(memory.bytes, 0);
    let (x, y) = (to!(memory.doubles, 0), to!(memory.doubles, 1));
    // The bits of a number with a fraction are compared, so that no two of them are mistaken for equal.
    let (x, y): (*mut u64, *mut u64) = (x, y);
    lend!(
        memory,
        sigbrol_cut_step,
        layout,
        length,
        pitch,
        step,
        word,
        x.cast(),
        y.cast()
    )
}

/// A step of lines.
unsafe fn line_step(memory: &mut Memory) -> Reply {
    let (lines, count) = (at(&memory.cut_lines), memory.cut_lines.length());
    let (pitch, step) = (memory.numbers.pitch, memory.numbers.step);
    let word = to!(memory.bytes, 0);
    let (x, y) = (to!(memory.doubles, 0), to!(memory.doubles, 1));
    let (x, y): (*mut u64, *mut u64) = (x, y);
    sigbrol_line_step(lines, count, pitch, step, word, x.cast(), y.cast())
}

/// The start layout, and a layout read or written.
unsafe fn text(kind: Kind, memory: &mut Memory) -> Reply {
    let (layout, length) = (at_mut(&mut memory.layout), memory.layout.length());
    let (text, text_length) = (at(&memory.text), memory.text.length());
    let (output, output_length) = (at_mut(&mut memory.output), memory.output.length());
    let written = to!(memory.sizes, 0);
    match kind {
        Kind::Start => lend!(memory, sigbrol_start, layout, length),
        Kind::ReadLayout => {
            lend!(
                memory,
                sigbrol_read_layout,
                text,
                text_length,
                layout,
                length
            )
        }
        _ => lend!(
            memory,
            sigbrol_write_layout,
            layout as *const _,
            length,
            output,
            output_length,
            written
        ),
    }
}

/// A compaction.
unsafe fn compact(memory: &mut Memory) -> Reply {
    let (layout, length) = (at_mut(&mut memory.layout), memory.layout.length());
    let slid = to!(memory.words, 0);
    lend!(memory, sigbrol_compact, layout, length, slid)
}

/// A line search.
unsafe fn line_search(memory: &mut Memory) -> Reply {
    let (layout, length) = (at(&memory.layout), memory.layout.length());
    let (weights, weights_length) = (at(&memory.weights), memory.weights.length());
    let (sum, at) = (to!(memory.words, 0), to!(memory.sizes, 0));
    let numbers = memory.numbers;
    lend!(
        memory,
        sigbrol_line_search,
        layout,
        length,
        weights,
        weights_length,
        numbers.i,
        numbers.turn,
        numbers.vertical,
        numbers.held,
        sum,
        at
    )
}

/// A descent.
unsafe fn descent(memory: &mut Memory) -> Reply {
    let (layout, length) = (at_mut(&mut memory.layout), memory.layout.length());
    let (weights, weights_length) = (at(&memory.weights), memory.weights.length());
    let (workspace, words) = (at_mut(&mut memory.workspace), memory.workspace.length());
    let (end, sum) = (to!(memory.bytes, 0), to!(memory.words, 0));
    let (trials, moves) = (to!(memory.words, 1), to!(memory.words, 2));
    lend!(
        memory,
        sigbrol_descent,
        layout,
        length,
        weights,
        weights_length,
        memory.numbers.budget,
        workspace,
        words,
        end,
        sum,
        trials,
        moves
    )
}

/// A guided run.
unsafe fn guided_run(memory: &mut Memory) -> Reply {
    let (layout, length) = (at_mut(&mut memory.layout), memory.layout.length());
    let (weights, weights_length) = (at_mut(&mut memory.weights), memory.weights.length());
    let (workspace, words) = (at_mut(&mut memory.workspace), memory.workspace.length());
    let sum = to!(memory.words, 0);
    let (trials, moves) = (to!(memory.words, 1), to!(memory.words, 2));
    lend!(
        memory,
        sigbrol_guided_run,
        layout,
        length,
        weights,
        weights_length,
        memory.numbers.rounds,
        memory.numbers.budget,
        workspace,
        words,
        sum,
        trials,
        moves
    )
}

/// The program.
unsafe fn program(memory: &mut Memory) -> Reply {
    let (input, input_length) = (at(&memory.text), memory.text.length());
    let (output, output_length) = (at_mut(&mut memory.output), memory.output.length());
    let (workspace, words) = (at_mut(&mut memory.workspace), memory.workspace.length());
    let written = to!(memory.sizes, 0);
    sigbrol_program(
        input,
        input_length,
        output,
        output_length,
        workspace,
        words,
        written,
    )
}

/// Fresh, lay and withdraw.
unsafe fn sheet(kind: Kind, memory: &mut Memory) -> Reply {
    let (record, _) = (at_mut(&mut memory.record), memory.record.length());
    let (counts, length) = (at_mut(&mut memory.counts), memory.counts.length());
    let numbers = memory.numbers;
    let (piece, turn) = (numbers.i, numbers.turn);
    match kind {
        Kind::Fresh => lend!(memory, sigbrol_fresh, record, counts, length),
        Kind::Lay => lend!(
            memory,
            sigbrol_lay,
            record,
            counts,
            length,
            piece,
            turn,
            numbers.x,
            numbers.y
        ),
        _ => lend!(memory, sigbrol_withdraw, record, counts, length, piece),
    }
}
