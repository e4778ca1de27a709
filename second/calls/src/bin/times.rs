//! Times calls of the archive on the job files that are named, and prints three tables.
//!
//! The cut list, on a sheet that is made longer until the program's run ends clear: the sheet's length, the number of lines, and of many
//! calls the least, microseconds of check, cut_lines and cut_step and nanoseconds of line_step.
//!
//! The preview, on the start layout and on the one at the end of the program's run, and on 64 squares on one spot: pieces, pairs whose boxes
//! come within the gap, pairs that conflict, and means of CPU time, milliseconds of a preview and of a weighted sum and microseconds of a
//! penalty of a pair whose boxes come within the gap.
//!
//! The compaction, on the layout at the end of the run that ends clear, and on the longest sheet of as many rows on three more, where they pass
//! the check: the start layout, one of pieces spread out at random, and that of the run with everything pushed right and up. The sheet's
//! length, the pixels slid, the passes that slid a piece, the used length before and after, and means of CPU time, milliseconds of a compaction
//! and of the second program's.
//!
//!     SIGBROL_ARCHIVE=$PWD/crates/sigbrol/out/libsigbrol.a cargo run --release --offline --quiet \
//!         --manifest-path second/calls/Cargo.toml --bin times jobs/real-*.job jobs/sheet-columns-4096.job jobs/cut-dust.job

#[path = "../archive.rs"]
mod archive;

use calls::scene::{longest_sheet, Scene};
use calls::{guarded::Guarded, kind::Kind, memory::result, memory::Memory};
use second::inputs::random::Random;
use std::{env, ffi::c_long, fs, time::Instant};

/// Rounds that a mean is taken of; no more are begun after a second.
const ROUNDS: usize = 40;

/// Layouts of pieces spread out at random that are tried until one passes the check.
const SPREADS: u64 = 200;

/// The least time of many runs, in seconds.
fn least(mut run: impl FnMut()) -> f64 {
    let time = |_| {
        let begin = Instant::now();
        run();
        begin.elapsed().as_secs_f64()
    };
    (0..300).map(time).fold(f64::INFINITY, f64::min)
}

/// The CPU time of this program so far, in seconds.
fn cpu_time() -> f64 {
    extern "C" {
        /// Of the C library; a second has a million clocks on every POSIX system.
        fn clock() -> c_long;
    }
    // It takes nothing and writes nothing.
    unsafe { clock() as f64 / 1e6 }
}

/// The mean CPU time of a round of calls, in seconds.
fn mean(mut round: impl FnMut()) -> f64 {
    let (begin, mut rounds) = (cpu_time(), 0);
    while rounds < ROUNDS && cpu_time() - begin < 1.0 {
        round();
        rounds += 1;
    }
    (cpu_time() - begin) / rounds as f64
}

/// Makes a call that is accepted.
fn call(kind: Kind, memory: &mut Memory) {
    assert_eq!(archive::call(kind, memory).reply[0], 0, "{kind:?}");
}

/// The layout of a text becomes that of the memory.
fn read_layout(memory: &mut Memory, text: &str) {
    memory.text = Guarded::new(text.as_bytes());
    call(Kind::ReadLayout, memory);
}

/// A job on a sheet that is made longer by fifths until its run ends clear, and the text of the layout.
fn clear_run(file: &str, job: &str) -> (Scene, String) {
    let scene = Scene::new(file.to_string(), job.as_bytes().to_vec());
    let [rows, columns] = scene.sheet();
    let run = |fifths: usize| {
        let scene = scene.on_sheet(rows, columns * fifths / 5);
        let output = second::run(&scene.text);
        let (layout, _) = output.split_once("end,clear,")?;
        Some((scene, layout.to_string()))
    };
    (5..20).find_map(run).expect("a run that ends clear")
}

/// Times the cut list of a job and prints its line of the table.
fn time_cut_list(file: &str, job: &str) {
    let (scene, layout) = clear_run(file, job);
    let mut memory = scene.memory(&mut Random::new(0), Kind::CutStep);
    let (columns, pitch) = (memory.columns, memory.numbers.pitch);
    let room = sigbrol::cut_lines_capacity(memory.rows, columns);
    memory.cut_lines = Guarded::new(&vec![[0; 4]; room]);
    read_layout(&mut memory, &layout);
    let [check, lines, step] = [Kind::Check, Kind::CutLines, Kind::CutStep]
        .map(|kind| 1e6 * least(|| call(kind, &mut memory)));
    let (count, at) = (memory.sizes.get()[result(0)], memory.cut_lines.get());
    let (mut word, mut x, mut y, steps) = (0, 0.0, 0.0, 2 * count as u64);
    // So many lines are there, and each result has a place of its own.
    let mut line_step = |step| unsafe {
        sigbrol::sigbrol_line_step(at.as_ptr(), count, pitch, step, &mut word, &mut x, &mut y);
    };
    let one = 1e9 / steps as f64 * least(|| (0..steps).for_each(&mut line_step));
    println!("{file}: {columns} {count} {check:.0} {lines:.0} {step:.0} {one:.1}");
}

/// Times the preview on two layouts of a job and prints their lines of the table.
fn time_previews(file: &str, job: &str) {
    let scene = Scene::new(file.to_string(), job.as_bytes().to_vec());
    let mut memory = scene.memory(&mut Random::new(0), Kind::Preview);
    call(Kind::Start, &mut memory);
    time_layout(&format!("{file}, start"), &mut memory);
    let output = second::run(job.as_bytes());
    let (layout, _) = output.split_once("end,").expect("a run");
    read_layout(&mut memory, layout);
    time_layout(&format!("{file}, end"), &mut memory);
}

/// Times the preview on the largest number of pieces, each of which lies on all others, and prints its line of the table.
fn time_one_spot() {
    let rows = format!("row,{}\n", "#".repeat(32)).repeat(32);
    let squares = (0..64).map(|number| format!("piece,{number},32,32,15\n{rows}"));
    let job = format!("job,1,256,256,64\n{}", squares.collect::<String>());
    let scene = Scene::new("squares".to_string(), job.into_bytes());
    let mut memory = scene.memory(&mut Random::new(0), Kind::Preview);
    memory.layout = Guarded::new(&[[0; 3]; 64]);
    time_layout("64 squares of 32 x 32 on one spot", &mut memory);
}

/// Times the preview on a layout, with a weighted sum and a penalty beside it, and prints a line of the table.
fn time_layout(name: &str, memory: &mut Memory) {
    let count = memory.count;
    let pairs = (0..count).flat_map(|i| (i + 1..count).map(move |k| (i, k)));
    let meeting: Vec<_> = pairs.filter(|&(i, k)| boxes_meet(memory, i, k)).collect();
    let sharing = meeting.iter().filter(|&&pair| shares(memory, pair)).count();
    let preview = 1e3 * mean(|| preview_each(memory)) / count as f64;
    let sum = 1e3 * mean(|| call(Kind::WeightedSum, memory));
    let penalties = 1e6 * mean(|| penalty_each(memory, &meeting));
    let penalty = match meeting.len() {
        0 => "-".to_string(),
        meeting => format!("{:.1}", penalties / meeting as f64),
    };
    let meeting = meeting.len();
    println!("{name}: {count} {meeting} {sharing} {preview:.3} {sum:.3} {penalty}");
}

/// A preview of each piece moved by one column, to the left where there is one.
fn preview_each(memory: &mut Memory) {
    for piece in 0..memory.count {
        let [turn, x, y] = memory.layout.get()[piece];
        let [columns, _] = turned_box(memory, piece);
        let right = u16::from(columns < memory.columns);
        let numbers = &mut memory.numbers;
        (numbers.i, numbers.turn, numbers.y) = (piece, turn, y);
        numbers.x = x.checked_sub(1).unwrap_or(right);
        call(Kind::Preview, memory);
    }
}

/// The penalty of each of some pairs.
fn penalty_each(memory: &mut Memory, pairs: &[(usize, usize)]) {
    for &(i, k) in pairs {
        (memory.numbers.i, memory.numbers.k) = (i, k);
        call(Kind::Penalty, memory);
    }
}

/// Whether two pieces conflict.
fn shares(memory: &mut Memory, (i, k): (usize, usize)) -> bool {
    (memory.numbers.i, memory.numbers.k) = (i, k);
    call(Kind::SharesPixel, memory);
    memory.bytes.get()[result(0)] != 0
}

/// Columns and rows of a piece's turned box.
fn turned_box(memory: &Memory, piece: usize) -> [usize; 2] {
    let [l, w, ..] = memory.table.get()[piece].map(usize::from);
    match memory.layout.get()[piece][0] {
        0 | 180 => [l, w],
        _ => [w, l],
    }
}

/// Whether the boxes of two pieces come within the gap.
fn boxes_meet(memory: &Memory, i: usize, k: usize) -> bool {
    let [i_box, k_box] = [i, k].map(|piece| turned_box(memory, piece));
    let [i_place, k_place] = [i, k].map(|piece| memory.layout.get()[piece].map(usize::from));
    (0..2).all(|axis| {
        let (i_from, k_from) = (i_place[1 + axis], k_place[1 + axis]);
        let gap = memory.gap;
        i_from < k_from + k_box[axis] + gap && k_from < i_from + i_box[axis] + gap
    })
}

/// Times the compaction of some layouts of a job and prints their lines of the table.
fn time_compactions(file: &str, job: &str) {
    let (scene, text) = clear_run(file, job);
    let mut memory = scene.memory(&mut Random::new(0), Kind::Check);
    read_layout(&mut memory, &text);
    time_compaction(&format!("{file}, end"), &memory);

    let [rows, _] = scene.sheet();
    let long = scene.on_sheet(rows, longest_sheet(rows));
    let end = memory.layout.clone();
    memory = long.memory(&mut Random::new(0), Kind::Check);
    let is_clear = |memory: &Memory| {
        let check = second::calls::check(&memory.job(), memory.layout.get());
        check.is_ok()
    };
    call(Kind::Start, &mut memory);
    if is_clear(&memory) {
        time_compaction(&format!("{file}, start"), &memory);
    }
    let spread = (0..SPREADS).any(|seed| {
        memory.layout = Guarded::new(&long.spread_layout(&mut Random::new(seed)));
        is_clear(&memory)
    });
    if spread {
        time_compaction(&format!("{file}, spread"), &memory);
    }
    memory.layout = end;
    push_right_and_up(&mut memory);
    time_compaction(&format!("{file}, right and up"), &memory);
}

/// Turns a job and its layout by half.
fn turn_by_half(memory: &mut Memory) {
    let mut begin = 0;
    for piece in 0..memory.count {
        let [l, w, ..] = memory.table.get()[piece].map(usize::from);
        memory.pixels.get_mut()[begin..begin + l * w].reverse();
        begin += l * w;
        let [columns, rows] = turned_box(memory, piece);
        let ends = [memory.columns - columns, memory.rows - rows].map(|end| end as u16);
        let [_, x, y] = &mut memory.layout.get_mut()[piece];
        (*x, *y) = (ends[0] - *x, ends[1] - *y);
    }
}

/// Pushes everything right and up, which is left and down on the sheet turned by half.
fn push_right_and_up(memory: &mut Memory) {
    turn_by_half(memory);
    call(Kind::Compact, memory);
    turn_by_half(memory);
}

/// Times the compaction of a layout that passes the check and prints a line of the table.
fn time_compaction(name: &str, given: &Memory) {
    let mut memory = given.clone();
    let own = 1e3
        * mean(|| {
            memory.layout.take(&given.layout);
            call(Kind::Compact, &mut memory);
        });
    let slid = memory.words.get()[result(0)];
    let mut layout = given.layout.clone();
    let mut passes = 0;
    let other = 1e3
        * mean(|| {
            layout.take(&given.layout);
            let compacted = second::calls::compact(&given.job(), layout.get_mut());
            passes = compacted.expect("the layout passes the check").passes;
        });
    let [before, after] = [&given.layout, &memory.layout].map(|layout| {
        let used = second::calls::used_length(&given.job(), layout.get());
        used.expect("the layout is right")
    });
    let columns = given.columns;
    println!("{name}: {columns} {slid} {passes} {before} {after} {own:.3} {other:.3}");
}

fn main() {
    let read = |file: String| {
        let job = fs::read_to_string(&file).expect("a job text");
        (file, job)
    };
    let jobs: Vec<(String, String)> = env::args().skip(1).map(read).collect();
    println!("cut list: L, lines, check µs, cut_lines µs, cut_step µs, line_step ns");
    jobs.iter().for_each(|(file, job)| time_cut_list(file, job));
    println!("preview: pieces, boxes meet, conflict, preview ms, weighted sum ms, penalty µs");
    jobs.iter().for_each(|(file, job)| time_previews(file, job));
    time_one_spot();
    println!("compaction: L, pixels, passes, used length before, after, compaction ms, second ms");
    jobs.iter()
        .for_each(|(file, job)| time_compactions(file, job));
}
