//! Holds another side's calls against the second program's and counts how they ended.

use std::collections::BTreeMap;

use second::calls::Cause;
use second::inputs::random::Random;

use crate::compaction::{assert_claims, of_compaction, OF_COMPACTIONS};
use crate::expected::{self, Returned};
use crate::guarded::Guarded;
use crate::kind::Kind;
use crate::memory::{result, Memory};

/// The largest number by which a call is refused.
const NUMBERS: u32 = 16;

/// The ends of a descent, in the order of their numbers.
const ENDS: [&str; 3] = ["clear", "settled", "spent"];

/// What has to come up in no-fit rows and in no-fit columns: runs from the smallest offset and to the largest, without a gap and with the
/// largest gap, and the most runs that a line can have, which are those of every second offset without a gap.
const OF_LINES: [&str; 5] = [
    "a run from -254",
    "a run to 254",
    "a run from -262",
    "a run to 262",
    "255 runs",
];

/// What has to come up with locked pieces.
const OF_LOCKS: [&str; 9] = [
    "a lock set",
    "a lock set again",
    "a start of locked and free pieces",
    "a start of locked pieces alone",
    "a descent that moves pieces beside locked ones",
    "a descent of locked pieces alone that settles",
    "a descent of locked pieces alone that settles without a budget",
    "a guided run that moves pieces beside locked ones",
    "a guided run of locked pieces alone that stays open",
];

/// The fewest words of a workspace that a run uses.
const WORKSPACE_LEAST: usize = 29_061;

/// Differences that are described at the end.
const DESCRIBED: usize = 5;

/// The other side: makes a call on a caller's memory.
pub type Side<'a> = &'a (dyn Fn(Kind, &mut Memory) -> Returned + Sync);

/// Where an input comes from: the job and what was done to it.
pub struct Origin<'a> {
    pub scene: &'a str,
    pub damages: &'a [&'static str],
}

/// A call on which the sides differ.
struct Difference {
    size: usize,
    text: String,
}

/// The other side, and how the calls so far ended.
pub struct Comparison<'a> {
    other: Side<'a>,
    /// Calls by kind and cause, those that are accepted under no cause.
    ended: BTreeMap<(Kind, Option<Cause>), usize>,
    /// Accepted descents by their end: clear, settled, spent.
    descents: [usize; 3],
    /// Accepted no-fit lines by their kind and by what has to come up in them.
    lines: BTreeMap<(Kind, &'static str), usize>,
    /// Accepted calls by what has to come up with locked pieces and in compactions.
    seen: BTreeMap<&'static str, usize>,
    /// For each kind the number of differences and the one with the smallest input.
    different: BTreeMap<Kind, (usize, Difference)>,
    /// The workspace as the last run left it.
    left: Vec<u64>,
}

impl<'a> Comparison<'a> {
    /// Begins with no calls.
    pub fn new(other: Side<'a>) -> Comparison<'a> {
        Comparison {
            other,
            ended: BTreeMap::new(),
            descents: [0; 3],
            lines: BTreeMap::new(),
            seen: BTreeMap::new(),
            different: BTreeMap::new(),
            left: Vec::new(),
        }
    }

    /// Makes a call on both sides; the memory becomes what it has to be after the call.
    pub fn call(&mut self, kind: Kind, memory: &mut Memory, origin: &Origin) {
        let (before, mut found) = (memory.clone(), memory.clone());
        let expected = expected::call(kind, memory);
        let returned = (self.other)(kind, &mut found);
        *self.ended.entry((kind, expected.cause)).or_default() += 1;
        if kind == Kind::Descent && expected.cause.is_none() {
            self.descents[usize::from(memory.bytes.get()[result(0)])] += 1;
        }
        if Kind::NO_FIT_LINES.contains(&kind) && expected.cause.is_none() {
            for seen in of_line(memory) {
                *self.lines.entry((kind, seen)).or_default() += 1;
            }
        }
        if expected.cause.is_none() {
            for seen in of_locks(kind, &before, memory) {
                *self.seen.entry(seen).or_default() += 1;
            }
        }
        if kind == Kind::Compact && expected.cause.is_none() {
            assert_claims(&before, memory);
            for seen in of_compaction(&before, memory) {
                *self.seen.entry(seen).or_default() += 1;
            }
        }
        if kind.has_workspace() && expected.cause.is_none() {
            memory.workspace.take(&found.workspace);
            self.left = memory.workspace.get().to_vec();
        }
        let change = memory.difference(&found);
        if returned == expected.returned && change.is_none() {
            return;
        }
        let size = before.size();
        let text = describe(kind, &before, origin, expected.returned, returned, change);
        self.add_differences(kind, 1, Difference { size, text });
    }

    /// A workspace: none, a short one, one that a run uses, of arbitrary content or as the last run left it, whatever its job was.
    pub fn workspace(&self, random: &mut Random) -> Guarded<u64> {
        let short = random.between(1, WORKSPACE_LEAST - 1);
        let long = WORKSPACE_LEAST + random.pick(&[0, 1, 700, 9_000]);
        let length = random.pick(&[0, short, long, long]);
        if random.chance(50) {
            return Guarded::junk(random, length);
        }
        let mut words = self.left.clone();
        words.resize(length, 0);
        Guarded::new(&words)
    }

    /// Counts differences of a kind, of which one has the smallest input.
    fn add_differences(&mut self, kind: Kind, count: usize, difference: Difference) {
        let (so_far, smallest) = match self.different.remove(&kind) {
            Some((so_far, kept)) if kept.size <= difference.size => (so_far, kept),
            Some((so_far, _)) => (so_far, difference),
            None => (0, difference),
        };
        self.different.insert(kind, (so_far + count, smallest));
    }

    /// Adds the calls of another comparison.
    pub fn add(&mut self, part: Comparison) {
        for (ended, count) in part.ended {
            *self.ended.entry(ended).or_default() += count;
        }
        for (count, more) in self.descents.iter_mut().zip(part.descents) {
            *count += more;
        }
        for (line, count) in part.lines {
            *self.lines.entry(line).or_default() += count;
        }
        for (seen, count) in part.seen {
            *self.seen.entry(seen).or_default() += count;
        }
        for (kind, (count, difference)) in part.different {
            self.add_differences(kind, count, difference);
        }
    }

    /// The kinds of calls on which the sides differ.
    pub fn different_kinds(&self) -> Vec<Kind> {
        self.different.keys().copied().collect()
    }

    /// Whether no call was different and all that has to come up did.
    pub fn is_well(&self) -> bool {
        self.different.is_empty() && self.missing().is_empty()
    }

    /// How many calls of a kind ended in some way.
    fn count(&self, kind: Kind, fits: impl Fn(Option<Cause>) -> bool) -> usize {
        let of_kind = self.ended.iter().filter(|((of, _), _)| *of == kind);
        of_kind
            .filter(|((_, cause), _)| fits(*cause))
            .map(|(_, count)| count)
            .sum()
    }

    /// How many accepted no-fit lines of each kind have what has to come up in them.
    fn lines_seen(&self) -> [(Kind, [(&'static str, usize); 5]); 2] {
        Kind::NO_FIT_LINES.map(|kind| {
            let count = |seen| self.lines.get(&(kind, seen)).copied().unwrap_or(0);
            (kind, OF_LINES.map(|seen| (seen, count(seen))))
        })
    }

    /// How many accepted calls had what has to come up with locked pieces, and in compactions.
    fn calls_seen(&self) -> [Vec<(&'static str, usize)>; 2] {
        let count = |seen: &'static str| (seen, self.seen.get(seen).copied().unwrap_or(0));
        [&OF_LOCKS[..], &OF_COMPACTIONS].map(|list| list.iter().map(|seen| count(seen)).collect())
    }

    /// In words, each way for a call to end, and each thing that a no-fit line, a call with locked pieces or a compaction has to have, that did
    /// not come up.
    pub fn missing(&self) -> Vec<String> {
        let mut missing = Vec::new();
        for kind in Kind::ALL {
            if self.count(kind, |cause| cause.is_none()) == 0 {
                missing.push(format!("no call of {kind:?} is accepted"));
            }
            for cause in kind.causes() {
                if self.count(kind, |found| found == Some(cause)) == 0 {
                    let number = cause.number();
                    missing.push(format!(
                        "no call of {kind:?} is refused by {number}, {cause:?}"
                    ));
                }
            }
        }
        for (end, count) in ENDS.iter().zip(self.descents) {
            if count == 0 {
                missing.push(format!("no descent ends {end}"));
            }
        }
        for (kind, seen) in self.lines_seen() {
            let unseen = seen.into_iter().filter(|(_, count)| *count == 0);
            missing.extend(unseen.map(|(seen, _)| format!("no call of {kind:?} finds {seen}")));
        }
        let seen = self.calls_seen().into_iter().flatten();
        let unseen = seen.filter(|(_, count)| *count == 0);
        missing.extend(unseen.map(|(seen, _)| format!("no call is {seen}")));
        missing
    }

    /// The table of all calls, what came up and what is missing, the smallest differences and the totals.
    pub fn summary(&self) -> String {
        let numbers: String = (1..=NUMBERS)
            .map(|number| format!("{:>6}", format!("by {number}")))
            .collect();
        let mut lines = vec![format!(
            "{:<16}{:>7}{:>9}{numbers}{:>10}",
            "call", "calls", "accepted", "different"
        )];
        lines.extend(Kind::ALL.map(|kind| self.line(kind)));
        let ends = ENDS.iter().zip(self.descents);
        let ends: Vec<String> = ends.map(|(end, count)| format!("{count} {end}")).collect();
        lines.push(format!("descents that ended: {}", ends.join(", ")));
        for (kind, seen) in self.lines_seen() {
            let seen = seen.map(|(seen, count)| format!("{seen}: {count}"));
            lines.push(format!("calls of {kind:?} that found {}", seen.join(", ")));
        }
        for list in self.calls_seen() {
            let seen = list.iter().map(|(seen, count)| format!("{seen}: {count}"));
            let seen: Vec<String> = seen.collect();
            lines.push(format!("calls that were {}", seen.join(", ")));
        }
        lines.extend(self.missing());
        let mut differences: Vec<&(usize, Difference)> = self.different.values().collect();
        differences.sort_by_key(|(_, difference)| difference.size);
        let described = differences.iter().take(DESCRIBED);
        lines.extend(described.map(|(_, difference)| format!("different: {}", difference.text)));
        let calls: usize = self.ended.values().sum();
        let different: usize = self.different.values().map(|(count, _)| count).sum();
        lines.push(format!("{calls} calls, {different} different"));
        lines.join("\n")
    }

    /// The table's line of a kind.
    fn line(&self, kind: Kind) -> String {
        let by = |number: u32| {
            let count = self.count(kind, |cause| {
                cause.is_some_and(|cause| cause.number() == number)
            });
            format!(
                "{:>6}",
                if count == 0 {
                    "-".to_string()
                } else {
                    count.to_string()
                }
            )
        };
        let numbers: String = (1..=NUMBERS).map(by).collect();
        let calls = self.count(kind, |_| true);
        let accepted = self.count(kind, |cause| cause.is_none());
        let different = self.different.get(&kind).map_or(0, |(count, _)| *count);
        format!(
            "{:<16}{calls:>7}{accepted:>9}{numbers}{different:>10}",
            format!("{kind:?}")
        )
    }
}

/// What has to come up in no-fit lines and does in the one that was found.
fn of_line(memory: &Memory) -> impl Iterator<Item = &'static str> {
    let runs = &memory.runs.get()[..memory.sizes.get()[result(0)]];
    let first = runs.first().map(|&[first, _]| first);
    let last = runs.last().map(|&[first, count]| first + count - 1);
    let found = [
        memory.gap == 0 && first == Some(-254),
        memory.gap == 0 && last == Some(254),
        first == Some(-262),
        last == Some(262),
        runs.len() == sigbrol::RUNS,
    ];
    let seen = OF_LINES.into_iter().zip(found);
    seen.filter_map(|(seen, found)| found.then_some(seen))
}

/// What has to come up with locked pieces and does in a call that was accepted.
fn of_locks(kind: Kind, before: &Memory, after: &Memory) -> impl Iterator<Item = &'static str> {
    let locked = before.locks().filter(|&locked| locked).count();
    let all = locked == before.count;
    let some = locked > 0 && !all;
    let piece = before.locks().nth(before.numbers.i);
    let moves = after.words.get()[result(2)] > 0;
    let settles = kind == Kind::Descent && all && after.bytes.get()[result(0)] == 1;
    let found = [
        kind == Kind::SetLock && piece == Some(false),
        kind == Kind::SetLock && piece == Some(true),
        kind == Kind::Start && some,
        kind == Kind::Start && all,
        kind == Kind::Descent && some && moves,
        settles,
        settles && before.numbers.budget == 0,
        kind == Kind::GuidedRun && some && moves,
        kind == Kind::GuidedRun && all && after.words.get()[result(0)] > 0,
    ];
    let seen = OF_LOCKS.into_iter().zip(found);
    seen.filter_map(|(seen, found)| found.then_some(seen))
}

/// Describes a difference: the call, its input as far as it is short, and what differs.
fn describe(
    kind: Kind,
    before: &Memory,
    origin: &Origin,
    expected: Returned,
    found: Returned,
    change: Option<String>,
) -> String {
    let mut text = format!(
        "{kind:?} on {}, damaged: {:?}",
        origin.scene, origin.damages
    );
    if expected != found {
        text += &format!("\n  expected {expected:?}\n  found    {found:?}");
    }
    if let Some(change) = change {
        text += &format!("\n  {change}");
    }
    let Memory {
        rows,
        columns,
        count,
        gap,
        numbers,
        ..
    } = before;
    text += &format!("\n  W {rows}, L {columns}, n {count}, gap {gap}, {numbers:?}");
    macro_rules! show {
        ($($field:ident),*) => {$(
            if before.$field.length() > 0 {
                let shown = shown(before.$field.get());
                text += &format!("\n  {} {shown:?}", stringify!($field));
            }
        )*};
    }
    show!(
        table,
        pixels,
        turns,
        row_strips,
        row_starts,
        column_strips,
        column_starts
    );
    show!(layout, weights, cut_lines, counts);
    if before.counts.length() > 0 {
        text += &format!("\n  record {:?}", before.record.get());
    }
    if before.text.length() > 0 {
        let lent = String::from_utf8_lossy(shown(before.text.get()));
        text += &format!("\n  text {lent:?}");
    }
    text
}

/// The front of a buffer.
fn shown<T>(buffer: &[T]) -> &[T] {
    &buffer[..buffer.len().min(200)]
}
