//! The functions of include/sigbrol.h, declared for Rust: first those that are lent no job or write its table, then the others, in the
//! header's order. What each does and refuses stands there. `safe` is a safe layer over some of them. A program that calls them links the
//! archive that `rt lib` makes in crates/sigbrol (examples/rust/build.rs shows how).

#![no_std]

#[cfg(feature = "safe")]
extern crate alloc;

#[cfg(feature = "safe")]
pub mod safe;

/// The version of the interface.
pub const VERSION: u32 = 9;

/// The largest numbers of a job: pieces, bytes of all boxes together, bytes of a job text that the program reads.
pub const PIECES: usize = 64;
pub const PIXELS: usize = 65_536;
pub const TEXT: usize = 65_536;

/// The largest gap, depth and penalty of two pieces of a job.
pub const GAP: usize = 8;
pub const DEPTH: u32 = 263;
pub const PENALTY: u32 = 199;

/// Lengths that suffice for every job: strips of a store, its starts, runs of a no-fit row or column, bytes of a layout text and of
/// the program's output.
pub const STRIPS: usize = PIXELS;
pub const STARTS: usize = PIECES + 1;
pub const RUNS: usize = 255;
pub const LAYOUT_TEXT: usize = 2_048;
pub const OUTPUT: usize = 4_096;

/// Words of a workspace: fewer than the first are not used; the second hold the maps of a job of middle size.
pub const WORKSPACE_LEAST: usize = 29_061;
pub const WORKSPACE: usize = 262_144;

/// How many lines suffice for the cut list of every layout on a sheet.
pub const fn cut_lines_capacity(rows: usize, columns: usize) -> usize {
    (rows + 1) * (columns + 1)
}

/// The lock of a piece.
pub const FREE: u8 = 0;
pub const LOCKED: u8 = 1;

/// The stations that may ask for a lock: the planner's is refused, the cutter's sets it.
pub const PLANNER: usize = 0;
pub const CUTTER: usize = 1;

/// The largest weight.
pub const WEIGHT: u32 = 65_535;

/// What the knife does at a step.
pub const STEP_DONE: u8 = 0;
pub const STEP_LIFT: u8 = 1;
pub const STEP_CUT: u8 = 2;

/// The largest pitch: the side of a pixel in sixty-fourths of a millimetre.
pub const PITCH: u32 = 4_096;

/// How a descent ended.
pub const CLEAR: u8 = 0;
pub const SETTLED: u8 = 1;
pub const SPENT: u8 = 2;

/// The numbers of refusals, 0 for a call that did its work.
pub const DONE: u32 = 0;
pub const WRONG_FORM: u32 = 1;
pub const OUT_OF_RANGE: u32 = 2;
pub const SHEET_TOO_LARGE: u32 = 3;
pub const BOXES_TOO_LARGE: u32 = 4;
pub const LOOSE_BOX: u32 = 5;
pub const BOX_TOO_LARGE: u32 = 6;
pub const WRONG_LENGTH: u32 = 7;
pub const NOT_OURS: u32 = 8;
pub const NO_SUCH_PIECE: u32 = 9;
pub const OUTSIDE: u32 = 10;
pub const EMPTY_LINE: u32 = 11;
pub const SHARED_PIXEL: u32 = 12;
pub const LAID_ALREADY: u32 = 13;
pub const NOT_LAID: u32 = 14;
pub const PIECE_LOCKED: u32 = 15;
pub const NOT_THE_CUTTER: u32 = 16;

/// A piece's entry of the table: l, w, o, lock.
pub type Entry = [u8; 4];

/// A strip: line, first, count.
pub type Strip = [u8; 3];

/// A piece's entry of a layout: turn in degrees, corner x, corner y.
pub type Place = [u16; 3];

/// A piece's entry of the sheet record: laid, turn, x, y.
pub type RecordEntry = [u16; 4];

/// A line to cut: 0 horizontal or 1 vertical, its pixel line, first, last.
pub type CutLine = [u16; 4];

/// A run of offsets: first, count.
pub type Run = [i32; 2];

/// What a call replies: number 0, or why and where it is refused.
#[repr(C)]
#[derive(Clone, Copy, Debug, PartialEq, Eq)]
pub struct Reply {
    pub number: u32,
    pub first: u32,
    pub second: u32,
}

/// Declares functions whose first eight arguments lend a job.
macro_rules! lent_a_job {
    ($(fn $name:ident($($argument:ident: $kind:ty),* $(,)?) -> $result:ty;)*) => {
        extern "C" {
            $(pub fn $name(
                rows: usize,
                columns: usize,
                count: usize,
                gap: usize,
                table: *const Entry,
                table_length: usize,
                pixels: *const u8,
                pixels_length: usize,
                $($argument: $kind),*
            ) -> $result;)*
        }
    };
}

extern "C" {
    pub fn sigbrol_read_job(
        text: *const u8,
        text_length: usize,
        table: *mut Entry,
        table_length: usize,
        pixels: *mut u8,
        pixels_length: usize,
        rows: *mut usize,
        columns: *mut usize,
        count: *mut usize,
        gap: *mut usize,
    ) -> Reply;

    /// It is lent a job whose table it writes.
    pub fn sigbrol_set_lock(
        rows: usize,
        columns: usize,
        count: usize,
        gap: usize,
        table: *mut Entry,
        table_length: usize,
        pixels: *const u8,
        pixels_length: usize,
        piece: usize,
        station: usize,
    ) -> Reply;

    pub fn sigbrol_rebuild(
        rows: u16,
        columns: u16,
        vertical: u8,
        strips: *const Strip,
        strips_length: usize,
        pixels: *mut u8,
        pixels_length: usize,
    ) -> Reply;

    pub fn sigbrol_line_step(
        lines: *const CutLine,
        lines_length: usize,
        pitch: u32,
        step: u64,
        word: *mut u8,
        x: *mut f64,
        y: *mut f64,
    ) -> Reply;

    pub fn sigbrol_program(
        input: *const u8,
        input_length: usize,
        output: *mut u8,
        output_length: usize,
        workspace: *mut u64,
        workspace_length: usize,
        written: *mut usize,
    ) -> Reply;
}

lent_a_job! {
    fn sigbrol_strips(
        turns: *const u16,
        turns_length: usize,
        row_strips: *mut Strip,
        row_strips_length: usize,
        row_starts: *mut u32,
        row_starts_length: usize,
        column_strips: *mut Strip,
        column_strips_length: usize,
        column_starts: *mut u32,
        column_starts_length: usize,
    ) -> Reply;

    fn sigbrol_stretch(
        turns: *const u16,
        turns_length: usize,
        row_strips: *const Strip,
        row_strips_length: usize,
        row_starts: *const u32,
        row_starts_length: usize,
        column_strips: *const Strip,
        column_strips_length: usize,
        column_starts: *const u32,
        column_starts_length: usize,
        piece: usize,
        vertical: u8,
        first: *mut usize,
    ) -> usize;

    fn sigbrol_stretch_refusal(
        turns: *const u16,
        turns_length: usize,
        row_strips: *const Strip,
        row_strips_length: usize,
        row_starts: *const u32,
        row_starts_length: usize,
        column_strips: *const Strip,
        column_strips_length: usize,
        column_starts: *const u32,
        column_starts_length: usize,
        piece: usize,
        vertical: u8,
    ) -> u32;

    fn sigbrol_no_fit_row(
        i: usize,
        i_turn: u16,
        i_strips: *const Strip,
        i_strips_length: usize,
        k: usize,
        k_turn: u16,
        k_strips: *const Strip,
        k_strips_length: usize,
        offset: i32,
        runs: *mut Run,
        runs_length: usize,
        runs_count: *mut usize,
    ) -> Reply;

    fn sigbrol_no_fit_column(
        i: usize,
        i_turn: u16,
        i_strips: *const Strip,
        i_strips_length: usize,
        k: usize,
        k_turn: u16,
        k_strips: *const Strip,
        k_strips_length: usize,
        offset: i32,
        runs: *mut Run,
        runs_length: usize,
        runs_count: *mut usize,
    ) -> Reply;

    fn sigbrol_shares_pixel(layout: *const Place, layout_length: usize, i: usize, k: usize, shares: *mut u8) -> Reply;

    fn sigbrol_depth(
        layout: *const Place,
        layout_length: usize,
        i: usize,
        k: usize,
        vertical: u8,
        depth: *mut u32,
    ) -> Reply;

    fn sigbrol_penalty(layout: *const Place, layout_length: usize, i: usize, k: usize, penalty: *mut u32) -> Reply;

    fn sigbrol_weighted_sum(
        layout: *const Place,
        layout_length: usize,
        weights: *const u32,
        weights_length: usize,
        sum: *mut u64,
    ) -> Reply;

    fn sigbrol_plain_sum(layout: *const Place, layout_length: usize, sum: *mut u64) -> Reply;

    fn sigbrol_used_length(layout: *const Place, layout_length: usize, used: *mut usize) -> Reply;

    fn sigbrol_preview(
        layout: *const Place,
        layout_length: usize,
        weights: *const u32,
        weights_length: usize,
        piece: usize,
        turn: u16,
        x: u16,
        y: u16,
        sum: *mut u64,
        used: *mut usize,
    ) -> Reply;

    fn sigbrol_check(layout: *const Place, layout_length: usize) -> Reply;

    fn sigbrol_start(layout: *mut Place, layout_length: usize) -> Reply;

    fn sigbrol_compact(layout: *mut Place, layout_length: usize, slid: *mut u64) -> Reply;

    fn sigbrol_write_layout(
        layout: *const Place,
        layout_length: usize,
        text: *mut u8,
        text_length: usize,
        written: *mut usize,
    ) -> Reply;

    fn sigbrol_read_layout(text: *const u8, text_length: usize, layout: *mut Place, layout_length: usize) -> Reply;

    fn sigbrol_cut_lines(
        layout: *const Place,
        layout_length: usize,
        lines: *mut CutLine,
        lines_length: usize,
        lines_count: *mut usize,
    ) -> Reply;

    fn sigbrol_cut_step(
        layout: *const Place,
        layout_length: usize,
        pitch: u32,
        step: u64,
        word: *mut u8,
        x: *mut f64,
        y: *mut f64,
    ) -> Reply;

    fn sigbrol_line_search(
        layout: *const Place,
        layout_length: usize,
        weights: *const u32,
        weights_length: usize,
        piece: usize,
        turn: u16,
        vertical: u8,
        held: u16,
        sum: *mut u64,
        at: *mut usize,
    ) -> Reply;

    fn sigbrol_descent(
        layout: *mut Place,
        layout_length: usize,
        weights: *const u32,
        weights_length: usize,
        budget: u32,
        workspace: *mut u64,
        workspace_length: usize,
        end: *mut u8,
        sum: *mut u64,
        trials: *mut u64,
        moves: *mut u64,
    ) -> Reply;

    fn sigbrol_guided_run(
        layout: *mut Place,
        layout_length: usize,
        weights: *mut u32,
        weights_length: usize,
        rounds: u32,
        budget: u32,
        workspace: *mut u64,
        workspace_length: usize,
        sum: *mut u64,
        trials: *mut u64,
        moves: *mut u64,
    ) -> Reply;

    fn sigbrol_fresh(record: *mut RecordEntry, counts: *mut u8, counts_length: usize) -> Reply;

    fn sigbrol_lay(
        record: *mut RecordEntry,
        counts: *mut u8,
        counts_length: usize,
        piece: usize,
        turn: u16,
        x: u16,
        y: u16,
    ) -> Reply;

    fn sigbrol_withdraw(record: *mut RecordEntry, counts: *mut u8, counts_length: usize, piece: usize) -> Reply;
}
