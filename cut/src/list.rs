//! The cut list of a layout, from the core alone: no coordinate is computed here.

use cut::{Cut, CutList};
use sigbrol::safe::{line_step, Job, Refused, Step};

/// The cut list of a layout text, or of an output that begins with one, for pixels of a side in sixty-fourths of a millimetre.
pub fn read(job: &[u8], layout: &[u8], pitch: u32) -> Result<CutList, String> {
    let job = Job::read(job).map_err(|refused| said("job", refused))?;
    let layout = job.read_layout(layout_part(layout));
    let layout = layout.map_err(|refused| said("layout", refused))?;
    let lines = job.cut_lines(&layout);
    let lines = lines.map_err(|refused| said("layout", refused))?;
    let step = |lines: &[_], number| {
        let step = line_step(lines, pitch, number);
        step.map_err(|refused| said("pitch", refused))
    };
    let mut cuts = Vec::with_capacity(lines.len());
    let mut from = (0.0, 0.0);
    for number in 0.. {
        match step(&lines, number)? {
            Step::Lift(x, y) => from = (x, y),
            Step::Cut(x, y) => cuts.push(Cut { from, to: (x, y) }),
            Step::Done => break,
        }
    }
    // The top edge of the sheet as a line: its cut ends in the far corner.
    let [rows, columns] = job.sheet().map(|side| side as u16);
    let Step::Cut(x, y) = step(&[[0, rows, 0, columns]], 1)? else {
        return Err("a line has a second step".to_string());
    };
    Ok(CutList {
        sheet: (x, y),
        cuts,
    })
}

/// The lines of an output in front of the line `end,..`, all where there is none.
fn layout_part(text: &[u8]) -> &[u8] {
    let is_end = |at: &usize| text[*at..].starts_with(b"\nend,");
    let end = (0..text.len()).find(is_end);
    end.map_or(text, |at| &text[..at + 1])
}

/// What is wrong, in words.
fn said(what: &str, refused: Refused) -> String {
    let reply = refused.0;
    match reply.number {
        sigbrol::SHARED_PIXEL => format!(
            "{what}: pieces {} and {} share a pixel or lie within the gap: do not cut",
            reply.first, reply.second
        ),
        sigbrol::OUT_OF_RANGE if what == "pitch" => format!("{what}: 1 to {}", sigbrol::PITCH),
        number => format!("{what}: refused by {number}, line {}", reply.first),
    }
}
