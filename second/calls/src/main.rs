//! Calls the archive and the second program on all inputs and says where they differ; 0 means nowhere.

mod archive;

use std::process::ExitCode;

use calls::plan;

/// Threads that make the calls.
const THREADS: usize = 2;

/// The stack of a thread: 1.5 MB, which the header says that every call takes at most, and 64 KB for the comparison itself.
const STACK: usize = (3 << 19) + (1 << 16);

fn main() -> ExitCode {
    let comparison = plan::run(&archive::call, THREADS, STACK);
    println!("{}", comparison.summary());
    if comparison.is_well() {
        ExitCode::SUCCESS
    } else {
        ExitCode::FAILURE
    }
}
