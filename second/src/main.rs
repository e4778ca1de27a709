//! Reads a job from standard input and prints its best layout or its refusal.

use std::io::{self, Read, Write};

/// Reads at most one byte more than a job text may have, so that a longer input is seen as such.
fn main() -> io::Result<()> {
    let mut input = Vec::new();
    let limit = second::MAX_INPUT as u64 + 1;
    io::stdin().lock().take(limit).read_to_end(&mut input)?;
    io::stdout()
        .lock()
        .write_all(second::run(&input).as_bytes())
}
