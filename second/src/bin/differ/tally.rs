//! Counts of how inputs ended, and the lines of the summary.

use std::ops::AddAssign;

/// The largest number by which the program refuses a job.
pub const CAUSES: usize = 7;

/// How many inputs ended in each way.
#[derive(Clone, Copy, Default)]
pub struct Tally {
    inputs: usize,
    clear: usize,
    open: usize,
    /// Accepted inputs whose layout leaves the sheet's first column free.
    free_left: usize,
    /// Refused inputs by the number of the cause, from 1.
    refused: [usize; CAUSES],
    pub different: usize,
}

impl Tally {
    /// Counts one input by its expected output.
    pub fn count(&mut self, expected: &str, same: bool) {
        self.inputs += 1;
        self.different += usize::from(!same);
        if expected.contains("\nend,clear,") {
            self.clear += 1;
        } else if expected.contains("\nend,open,") {
            self.open += 1;
        } else if let Some(cause) = refusal(expected) {
            self.refused[cause - 1] += 1;
        }
        self.free_left += usize::from(is_free_left(expected));
    }

    /// Whether no layout leaves cloth on its left, which leaves that part of the used length untried.
    pub fn none_free_left(&self) -> bool {
        self.free_left == 0
    }

    /// The numbers by which no input is refused.
    pub fn missing_causes(&self) -> Vec<usize> {
        let unused = |cause: &usize| self.refused[cause - 1] == 0;
        (1..=CAUSES).filter(unused).collect()
    }

    /// The head of the summary's table.
    pub fn head() -> String {
        let causes: String = (1..=CAUSES).map(|cause| format!("  by {cause}")).collect();
        format!(
            "{:<20}{:>7}{:>10}{:>7}{:>6}{:>11}{:>9}{causes}{:>11}",
            "kind", "inputs", "accepted", "clear", "open", "free left", "refused", "different"
        )
    }

    /// One line of the summary's table.
    pub fn line(&self, name: &str) -> String {
        let causes: String = self.refused.iter().map(|n| format!("{n:>6}")).collect();
        format!(
            "{name:<20}{:>7}{:>10}{:>7}{:>6}{:>11}{:>9}{causes}{:>11}",
            self.inputs,
            self.clear + self.open,
            self.clear,
            self.open,
            self.free_left,
            self.refused.iter().sum::<usize>(),
            self.different
        )
    }
}

impl AddAssign for Tally {
    /// Adds the counts of another tally.
    fn add_assign(&mut self, other: Tally) {
        self.inputs += other.inputs;
        self.clear += other.clear;
        self.open += other.open;
        self.free_left += other.free_left;
        for (count, more) in self.refused.iter_mut().zip(other.refused) {
            *count += more;
        }
        self.different += other.different;
    }
}

/// Whether an output has pieces and none with its corner in column 0.
fn is_free_left(output: &str) -> bool {
    let places = output.lines().filter(|line| line.starts_with("at,"));
    let mut corners = places.filter_map(|line| line.split(',').nth(3));
    corners.next().is_some_and(|first| first != "0") && corners.all(|corner| corner != "0")
}

/// The number of the cause that an output names.
fn refusal(output: &str) -> Option<usize> {
    let cause = output.strip_prefix("refused,")?.split(',').next()?;
    cause.parse().ok()
}
