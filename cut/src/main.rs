//! Writes the cut list of a layout for cutting tables: `cut JOB LAYOUT PITCH NAME` makes NAME.svg, NAME.dxf and NAME.plt; without NAME
//! they are called as the job, in the working directory.
//!
//! `list` asks the core for the cuts, the library's `formats` writes them.

mod list;

use std::path::Path;
use std::process::ExitCode;
use std::{env, fs};

use cut::formats;

/// Writes the three files, or tells on standard error why not: what is refused leaves none of them.
fn main() -> ExitCode {
    let arguments: Vec<String> = env::args().skip(1).collect();
    match write_all(&arguments) {
        Ok(()) => ExitCode::SUCCESS,
        Err(message) => {
            eprintln!("{message}");
            ExitCode::FAILURE
        }
    }
}

/// Writes the cut list of the job and the layout that the arguments name.
fn write_all(arguments: &[String]) -> Result<(), String> {
    let (job, layout, pitch, name) = match arguments {
        [job, layout, pitch] => (job, layout, pitch, stem(job)),
        [job, layout, pitch, name] => (job, layout, pitch, name.clone()),
        _ => return Err("usage: cut JOB LAYOUT PITCH [NAME]".to_string()),
    };
    let pitch = pitch.parse();
    let pitch =
        pitch.map_err(|_| "the pitch is a number of sixty-fourths of a millimetre".to_string())?;
    let list = list::read(&bytes(job)?, &bytes(layout)?, pitch)?;
    for (ending, text) in formats::ALL {
        let file = format!("{name}.{ending}");
        fs::write(&file, text(&list)).map_err(|error| format!("{file}: {error}"))?;
    }
    Ok(())
}

/// The name of a file without its folder and its ending.
fn stem(file: &str) -> String {
    let stem = Path::new(file).file_stem().unwrap_or_default();
    stem.to_string_lossy().into_owned()
}

/// The bytes of a file.
fn bytes(file: &str) -> Result<Vec<u8>, String> {
    fs::read(file).map_err(|error| format!("{file}: {error}"))
}
