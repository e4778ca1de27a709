//! Draws a layout as SVG: `picture JOB LAYOUT > layout.svg`, with the option `--cut` the lines to cut over it, and with `--compact` below it
//! the layout with everything pushed left and down.
//!
//! `layout` reads the two texts through the second program's library, `grid` has pixel sets, `outline`
//! finds their edges, `label` the places of the numbers, `colour` the colours, and `svg` draws.

mod colour;
mod grid;
mod label;
mod layout;
mod outline;
mod svg;

use std::io::{self, Write};
use std::process::ExitCode;
use std::{env, fs};

use layout::Layout;

/// The options, which are for layouts without conflicts.
const CUT: &str = "--cut";
const COMPACT: &str = "--compact";

/// Prints the picture, or a message on standard error and nothing else.
fn main() -> ExitCode {
    let arguments: Vec<String> = env::args().skip(1).collect();
    match picture(&arguments).and_then(|picture| print(&picture)) {
        Ok(()) => ExitCode::SUCCESS,
        Err(message) => {
            eprintln!("{message}");
            ExitCode::FAILURE
        }
    }
}

/// The picture of the job and the layout that the arguments name.
fn picture(arguments: &[String]) -> Result<String, String> {
    let (option, files) = match arguments {
        [option, files @ ..] if [CUT, COMPACT].contains(&option.as_str()) => (&option[..], files),
        files => ("", files),
    };
    let [job, layout] = files else {
        return Err(format!("usage: picture [{CUT} | {COMPACT}] JOB LAYOUT"));
    };
    let layout = layout::read(&bytes(job)?, &bytes(layout)?)?;
    match option {
        CUT => require_clear(&layout, "do not cut").map(|()| svg::draw(&layout, true)),
        COMPACT => require_clear(&layout, "nothing slides").map(|()| svg::draw_compaction(&layout)),
        _ => Ok(svg::draw(&layout, false)),
    }
}

/// Turns down a layout with conflicts, and says what follows from them.
fn require_clear(layout: &Layout, follows: &str) -> Result<(), String> {
    if layout.conflicts().count() == 0 {
        return Ok(());
    }
    let words = "layout: pieces share a pixel or lie within the gap";
    Err(format!("{words}: {follows}"))
}

/// The bytes of a file.
fn bytes(file: &str) -> Result<Vec<u8>, String> {
    fs::read(file).map_err(|error| format!("{file}: {error}"))
}

/// Prints a text on standard output.
fn print(text: &str) -> Result<(), String> {
    let printed = io::stdout().write_all(text.as_bytes());
    printed.map_err(|error| format!("standard output: {error}"))
}
