//! Runs a program on generated inputs and compares its output, byte for byte, with that of the second program. An exit status other
//! than 0, that of a crash among them, is a difference too.
//!
//! The library's `inputs` makes the inputs; `tally` counts how they ended.

mod tally;

use std::io::{self, Write};
use std::path::PathBuf;
use std::process::{Command, ExitCode, Output, Stdio};
use std::{env, fs, process, thread};

use second::inputs::kind::Kind;
use second::inputs::{damage, jobs};
use tally::Tally;

/// Compares the program that the only argument names; 0 means that no output is different.
fn main() -> ExitCode {
    let arguments: Vec<String> = env::args().skip(1).collect();
    let [program] = arguments.as_slice() else {
        eprintln!("usage: differ PROGRAM");
        return ExitCode::from(2);
    };
    match compare_all(program) {
        Ok(true) => ExitCode::SUCCESS,
        Ok(false) => ExitCode::FAILURE,
        Err(error) => {
            eprintln!("{program}: {error}");
            ExitCode::from(2)
        }
    }
}

/// All inputs, kind by kind.
fn all_kinds() -> Vec<Kind> {
    let mut kinds = jobs::kinds();
    kinds.extend(damage::kinds());
    kinds
}

/// Runs the program on every input, prints the summary and says whether all is well.
fn compare_all(program: &str) -> io::Result<bool> {
    let mut total = Tally::default();
    let mut first_difference = None;
    println!("{}", Tally::head());
    for kind in all_kinds() {
        let (tally, difference) = compare_kind(program, &kind)?;
        println!("{}", tally.line(kind.name));
        total += tally;
        first_difference = first_difference.or(difference);
    }
    println!("{}", total.line("all"));
    if let Some(difference) = &first_difference {
        println!("first difference: {}", difference.report()?);
    }
    // A cause that never comes leaves a part of the reader untried.
    for cause in total.missing_causes() {
        println!("no input is refused by {cause}");
    }
    if total.none_free_left() {
        println!("no layout leaves cloth on its left");
    }
    let all_tried = total.missing_causes().is_empty() && !total.none_free_left();
    Ok(total.different == 0 && all_tried)
}

/// Runs the program on the inputs of a kind; also gives the first difference.
fn compare_kind(program: &str, kind: &Kind) -> io::Result<(Tally, Option<Difference>)> {
    let mut tally = Tally::default();
    let mut first_difference = None;
    for (number, input) in kind.inputs.iter().enumerate() {
        let expected = second::run(input);
        let found = output(program, input)?;
        let same = is_as_expected(&found, &expected);
        tally.count(&expected, same);
        if !same && first_difference.is_none() {
            first_difference = Some(Difference {
                kind: kind.name,
                number,
                input: input.clone(),
                expected,
                found,
            });
        }
    }
    Ok((tally, first_difference))
}

/// Whether a program ended well and printed just what was expected.
fn is_as_expected(found: &Output, expected: &str) -> bool {
    found.status.success() && found.stdout == expected.as_bytes()
}

/// What the program prints for an input, and how it ends.
fn output(program: &str, input: &[u8]) -> io::Result<Output> {
    let mut child = Command::new(program)
        .stdin(Stdio::piped())
        .stdout(Stdio::piped())
        .spawn()?;
    let pipe = child.stdin.take();
    thread::scope(|scope| {
        scope.spawn(move || {
            // A program may stop reading where an input is too long; its output and exit status count.
            let _ = pipe.map(|mut pipe| pipe.write_all(input));
        });
        child.wait_with_output()
    })
}

/// An input for which the program's output is not the expected one, or its exit status not 0.
struct Difference {
    kind: &'static str,
    number: usize,
    input: Vec<u8>,
    expected: String,
    found: Output,
}

impl Difference {
    /// Writes the input to a file and names it, with how the program ended and the first line in which the outputs differ.
    fn report(&self) -> io::Result<String> {
        let file = self.save()?;
        let found = String::from_utf8_lossy(&self.found.stdout);
        let (line, expected, found) = differing_line(&self.expected, &found);
        Ok(format!(
            "{} {}, input in {}, {}\noutput line {line}: expected {expected:?}, found {found:?}",
            self.kind,
            self.number,
            file.display(),
            self.found.status
        ))
    }

    /// Writes the input to a file of the system's temporary folder.
    fn save(&self) -> io::Result<PathBuf> {
        let file = env::temp_dir().join(format!("differ-{}.job", process::id()));
        fs::write(&file, &self.input)?;
        Ok(file)
    }
}

/// The number of the first line, from 1, in which two different texts differ, and that line of both.
fn differing_line<'a>(one: &'a str, other: &'a str) -> (usize, &'a str, &'a str) {
    let (mut ones, mut others) = (one.split_inclusive('\n'), other.split_inclusive('\n'));
    let mut number = 1;
    loop {
        let lines = (ones.next(), others.next());
        if lines.0 != lines.1 || lines.0.is_none() {
            return (number, lines.0.unwrap_or(""), lines.1.unwrap_or(""));
        }
        number += 1;
    }
}

#[cfg(test)]
mod tests {
    use super::*;
    use second::job::{self, Job};

    /// The jobs that a kind's inputs are read as.
    fn jobs_of(kind: &Kind) -> Vec<Job> {
        let read = |input: &Vec<u8>| {
            assert!(input.len() <= second::MAX_INPUT, "{}", kind.name);
            job::read(input).expect(kind.name)
        };
        kind.inputs.iter().map(read).collect()
    }

    #[test]
    fn enough_inputs_and_the_same_ones_each_time() {
        let (kinds, again) = (all_kinds(), all_kinds());
        assert!(kinds.iter().map(|kind| kind.inputs.len()).sum::<usize>() >= 2_000);
        for (kind, again) in kinds.iter().zip(&again) {
            assert!(kind.inputs == again.inputs, "{}", kind.name);
        }
    }

    #[test]
    fn jobs_are_accepted_and_reach_the_limits() {
        let jobs: Vec<Job> = jobs::kinds().iter().flat_map(jobs_of).collect();
        for count in [1, 64] {
            assert!(jobs.iter().any(|job| job.pieces.len() == count));
        }
        for sheet in jobs::LARGEST_SHEETS {
            assert!(jobs.iter().any(|job| (job.rows, job.columns) == sheet));
        }
        let turn_sets = |job: &Job| -> Vec<usize> {
            let sum = |turn: second::shape::Turn| 1 << turn.index();
            job.pieces
                .iter()
                .map(|piece| piece.turns().map(sum).sum())
                .collect()
        };
        let found: Vec<usize> = jobs.iter().flat_map(turn_sets).collect();
        assert!((1..16).step_by(2).all(|sum| found.contains(&sum)));
    }

    #[test]
    fn every_gap_comes_up_and_matters() {
        let kinds = jobs::kinds();
        let inputs = || kinds.iter().flat_map(|kind| &kind.inputs);
        let is_without = |input: &Vec<u8>| input.starts_with(b"job,1,");
        assert!(inputs().any(is_without));
        for gap in 0..=8 {
            let of_gap = |input: &&Vec<u8>| input.starts_with(b"job,2,") && gap_of(input) == gap;
            let differs = |input: &Vec<u8>| second::run(input) != second::run(&without_gap(input));
            // A gap of 0 is none.
            assert_eq!(inputs().filter(of_gap).any(differs), gap > 0, "{gap}");
            assert!(inputs().any(|input| of_gap(&input)), "{gap}");
        }
    }

    /// The gap of a job.
    fn gap_of(input: &[u8]) -> usize {
        job::read(input).expect("the kinds are jobs").gap
    }

    /// The text of a job of version 2 as one of version 1.
    fn without_gap(input: &[u8]) -> Vec<u8> {
        let text = String::from_utf8_lossy(input);
        let (line, pieces) = text.split_once('\n').expect("a text has a first line");
        let (line, _) = line.rsplit_once(',').expect("the line has a gap");
        format!("{}\n{pieces}", line.replacen("job,2,", "job,1,", 1)).into_bytes()
    }

    #[test]
    fn locks_come_up_and_matter() {
        let kinds = jobs::kinds();
        let inputs = || kinds.iter().flat_map(|kind| &kind.inputs);
        let with_locks = || inputs().filter(|input| input.starts_with(b"job,3,"));
        let share = |input: &[u8]| {
            let pieces = job::read(input).expect("the kinds are jobs").pieces;
            let locked = pieces.iter().filter(|piece| piece.locked).count();
            (locked, pieces.len())
        };
        let ends = |input: &[u8], end: &str| second::run(input).contains(end);
        // None locked, some, all; and of the last two clear and open ends, trials and none.
        assert!(with_locks().any(|input| share(input).0 == 0));
        let some = || {
            with_locks().filter(|input| {
                let (locked, count) = share(input);
                0 < locked && locked < count
            })
        };
        let all = || {
            with_locks().filter(|input| {
                let (locked, count) = share(input);
                locked == count
            })
        };
        for end in ["end,clear,", "end,open,"] {
            assert!(some().any(|input| ends(input, end)), "{end}");
            assert!(all().any(|input| ends(input, end)), "{end}");
        }
        assert!(some().any(|input| second::run(input) != second::run(&without_locks(input))));
        // With all pieces locked there is no trial, so that nothing moves.
        assert!(all().all(|input| second::run(input)
            .lines()
            .any(|line| line.starts_with("end,") && line.contains(",0,0,"))));
        for gap in 0..=8 {
            assert!(some().any(|input| gap_of(input) == gap), "{gap}");
        }
    }

    /// The text of a job of version 3 with every piece free.
    fn without_locks(input: &[u8]) -> Vec<u8> {
        let text = String::from_utf8_lossy(input);
        let free = |line: &str| match line.strip_suffix(",1") {
            Some(piece) if line.starts_with("piece,") => format!("{piece},0\n"),
            _ => format!("{line}\n"),
        };
        text.lines().map(free).collect::<String>().into_bytes()
    }

    #[test]
    fn damaged_inputs_are_refused_by_every_cause() {
        let mut tally = Tally::default();
        for input in damage::kinds().iter().flat_map(|kind| &kind.inputs) {
            tally.count(&second::run(input), true);
        }
        assert_eq!(tally.missing_causes(), []);
    }

    #[test]
    fn lengths_are_exact() {
        let kinds = damage::kinds();
        let inputs = &kinds.last().expect("there are kinds").inputs;
        let accepted = |input: &&Vec<u8>| second::run(input).starts_with("layout,");
        let longest = inputs.iter().filter(accepted).map(Vec::len).max();
        assert_eq!(longest, Some(second::MAX_INPUT));
        assert!(inputs
            .iter()
            .any(|input| input.len() == second::MAX_INPUT + 1));
    }

    /// Runs a shell's command as the program and compares it with an expected output.
    fn shell_is_as_expected(command: &str, expected: &str) -> bool {
        let found = Command::new("sh").args(["-c", command]).output();
        is_as_expected(&found.expect("there is a shell"), expected)
    }

    #[test]
    fn the_exit_status_counts() {
        assert!(shell_is_as_expected("printf a", "a"));
        assert!(!shell_is_as_expected("printf b", "a"));
        assert!(!shell_is_as_expected("printf a; exit 1", "a"));
        assert!(!shell_is_as_expected("printf a; kill -s SEGV $$", "a"));
    }

    #[test]
    fn first_differing_line() {
        assert_eq!(differing_line("a\nb\nc\n", "a\nx\nc\n"), (2, "b\n", "x\n"));
        assert_eq!(differing_line("a\n", "a\nb"), (2, "", "b"));
        assert_eq!(differing_line("a\n", "a"), (1, "a\n", "a"));
    }
}
