//! All inputs, of fixed seeds: jobs of every kind, each with calls that are accepted, with every damage alone and with several.

use std::thread;

use second::inputs::kind::seed;
use second::inputs::random::Random;
use second::inputs::{damage as texts, jobs};
use second::shape::Turn;

use crate::comparison::{Comparison, Origin, Side};
use crate::damage::{damages, Damage};
use crate::guarded::Guarded;
use crate::kind::Kind;
use crate::layout_text;
use crate::memory::Memory;
use crate::scene::Scene;

/// Calls of each kind on a job: as accepted, with one damage, with several damages.
const ACCEPTED: usize = 2;
const ALONE: usize = 2;
const SEVERAL: usize = 3;

/// Damaged layout texts of a job.
const LAYOUT_TEXTS: usize = 6;

/// Lays and withdraws from a fresh sheet of a job, at most.
const SHEET_CALLS: usize = 60;

/// Calls on a job while its pieces are locked one by one.
const CUTTING_CALLS: usize = 20;

/// Which calls these are.
const WHILE_CUT: [Kind; 14] = {
    use Kind::*;
    [
        SetLock, SetLock, SetLock, Start, Compact, Compact, Descent, GuidedRun, LineSearch,
        Preview, PlainSum, Lay, Lay, Withdraw,
    ]
};

/// Inputs whose program run is compared; the program itself is compared elsewhere on all of them.
const PROGRAM_TEXT: usize = 2_000;

/// Every job, the largest ones last.
pub fn scenes() -> Vec<Scene> {
    let mut scenes = Vec::new();
    for kind in jobs::kinds() {
        for (number, text) in kind.inputs.into_iter().enumerate() {
            scenes.push(Scene::new(format!("{} {number}", kind.name), text));
        }
    }
    scenes.extend(full_stores());
    scenes
}

/// A job of combs, columns and rows, on a sheet of 256 rows and 256 columns: of each box the first column is full, and from there on
/// each that is so many columns apart from the one before, the last column among them.
fn combs(name: &str, gap: usize, apart: usize, boxes: &[(usize, usize)]) -> Scene {
    let mut text = format!("job,2,256,256,{},{gap}\n", boxes.len());
    for (number, &(columns, rows)) in boxes.iter().enumerate() {
        let further = format!("{}#", ".".repeat(apart - 1));
        let row = format!("row,#{}\n", further.repeat((columns - 1) / apart));
        text += &format!("piece,{number},{columns},{rows},15\n{}", row.repeat(rows));
    }
    Scene::new(name.to_string(), text.into_bytes())
}

/// A job of full boxes, columns and rows, on such a sheet.
fn full_boxes(name: &str, gap: usize, boxes: &[(usize, usize)]) -> Scene {
    combs(name, gap, 1, boxes)
}

/// Jobs whose boxes have as many pixels together as a job may have.
fn full_stores() -> [Scene; 3] {
    let boxes = [(255, 255), (255, 2), (1, 1)];
    [
        full_boxes("full store of squares", 0, &[(32, 32); 64]),
        full_boxes("full store of squares, gap", 3, &[(32, 32); 64]),
        full_boxes("full store of boxes", 0, &boxes),
    ]
}

/// Pairs of full boxes with the largest depths and the largest penalty of all jobs, and the layouts in which they have them. The text of
/// such a job is longer than the program reads.
fn largest() -> [(Scene, [[u16; 3]; 2]); 2] {
    [
        (
            full_boxes("largest depth", 8, &[(255, 128); 2]),
            [[0, 0, 0]; 2],
        ),
        (
            full_boxes("largest penalty", 8, &[(255, 128), (128, 255)]),
            [[0, 0, 64], [0, 64, 0]],
        ),
    ]
}

/// Single pixels at the far end of a row or of a column, the lowest number farthest out, and their layouts. Each has to wait for all that
/// come after it in number, so that a compaction has as many passes as there are pieces.
fn queues() -> [(Scene, Vec<[u16; 3]>); 2] {
    let pixels: String = (0..64)
        .map(|number| format!("piece,{number},1,1,1\nrow,#\n"))
        .collect();
    let scene = |name: &str, rows: usize, columns: usize| {
        let text = format!("job,1,{rows},{columns},64\n{pixels}");
        Scene::new(name.to_string(), text.into_bytes())
    };
    [
        (
            scene("queue along a row", 1, 4_096),
            (0..64).map(|number| [0, 4_095 - number, 0]).collect(),
        ),
        (
            scene("queue along a column", 512, 1),
            (0..64).map(|number| [0, 0, 511 - number]).collect(),
        ),
    ]
}

/// Pairs of pieces of 255 columns, each taken with the other and with itself: where they meet, their no-fit rows have runs at the smallest
/// offset and at the largest. Without a gap combs of every second column have the most runs that there can be.
fn farthest() -> [Scene; 4] {
    let (boxes, bars) = ([(255, 255), (255, 2)], [(255, 3), (255, 1)]);
    [
        full_boxes("farthest offsets", 0, &boxes),
        full_boxes("farthest offsets, gap", 8, &boxes),
        combs("most runs", 0, 2, &bars),
        combs("farthest runs, gap", 8, 127, &bars),
    ]
}

/// The no-fit lines of such pairs at offset 0, at the smallest and the largest offset across at which they meet, and one farther; each with
/// whether they meet. The no-fit columns are those of the pieces turned upright.
fn farthest_lines(scene: &Scene, kind: Kind) -> Vec<(Memory, bool)> {
    let random = &mut Random::new(0);
    let turn = Turn::ALL[usize::from(kind == Kind::NoFitColumn)];
    let mut lines = Vec::new();
    for (i, k) in [(0, 0), (0, 1), (1, 0), (1, 1)] {
        let pair = [(i, turn), (k, turn)];
        let [smallest, largest] = scene.meeting_offsets(kind, pair);
        for offset in [smallest - 1, smallest, 0, largest, largest + 1] {
            let mut memory = scene.memory(random, kind);
            scene.choose_line(random, &mut memory, kind, pair, offset);
            lines.push((memory, (smallest..=largest).contains(&offset)));
        }
    }
    lines
}

/// Makes every call of the comparison, in a number of threads that have the given stack.
pub fn run(other: Side, threads: usize, stack: usize) -> Comparison {
    let scenes = scenes();
    let part = |part: usize| {
        let mut comparison = Comparison::new(other);
        for (number, scene) in scenes.iter().enumerate().skip(part).step_by(threads) {
            run_scene(&mut comparison, scene, number);
        }
        if part == 0 {
            run_largest(&mut comparison);
            run_farthest(&mut comparison);
            run_queues(&mut comparison);
            run_texts(&mut comparison);
        }
        comparison
    };
    thread::scope(|scope| {
        let begin = |number| {
            let thread = thread::Builder::new().stack_size(stack);
            thread.spawn_scoped(scope, move || part(number))
        };
        let parts: Vec<_> = (0..threads).map(begin).collect();
        let mut whole = Comparison::new(other);
        for part in parts {
            let part = part.expect("a thread begins").join();
            whole.add(part.expect("a thread ends with its comparison"));
        }
        whole
    })
}

/// Every call on a job.
fn run_scene(comparison: &mut Comparison, scene: &Scene, number: usize) {
    for kind in Kind::ALL {
        // A new call leaves the inputs of the others as they are.
        let random = &mut Random::new(seed(&format!("{kind:?} {number}")));
        // A call that is never accepted here takes long even where it is refused.
        let taken = accepted(scene, kind);
        if taken == 0 {
            continue;
        }
        let (own, job) = damages(kind);
        let all = [&own, job].concat();
        for _ in 0..taken {
            call(comparison, random, scene, kind, &[]);
        }
        for turn in 0..ALONE {
            let damage = all[(ALONE * number + turn) % all.len()];
            call(comparison, random, scene, kind, &[damage]);
        }
        // A damaged job hides every other cause, so it is left alone mostly.
        let some = |random: &mut Random| {
            let known = if random.chance(10) { &all } else { &own };
            random.pick(known)
        };
        for _ in 0..SEVERAL.min(own.len()) {
            let count = random.between(2, 4);
            let damages: Vec<Damage> = (0..count).map(|_| some(random)).collect();
            call(comparison, random, scene, kind, &damages);
        }
    }
    let random = &mut Random::new(number as u64);
    run_layout_texts(comparison, random, scene);
    run_sheet(comparison, random, scene);
    if scene.is_small() {
        run_cutting(comparison, random, scene);
    }
}

/// The calls whose numbers are the largest that there can be, on the layouts that have them.
fn run_largest(comparison: &mut Comparison) {
    let mut random = Random::new(0);
    for (scene, layout) in largest() {
        for kind in [
            Kind::SharesPixel,
            Kind::Depth,
            Kind::Penalty,
            Kind::WeightedSum,
            Kind::PlainSum,
            Kind::Preview,
            Kind::Check,
            Kind::LineSearch,
            Kind::Descent,
            Kind::GuidedRun,
        ] {
            for vertical in [0, 1] {
                let mut memory = scene.memory(&mut random, kind);
                memory.layout = Guarded::new(&layout);
                memory.numbers.vertical = vertical;
                let origin = Origin {
                    scene: &scene.name,
                    damages: &[],
                };
                comparison.call(kind, &mut memory, &origin);
            }
        }
    }
}

/// The no-fit lines whose runs reach the farthest offsets that there can be, and those next to them that have no run.
fn run_farthest(comparison: &mut Comparison) {
    for scene in farthest() {
        let origin = Origin {
            scene: &scene.name,
            damages: &[],
        };
        for kind in Kind::NO_FIT_LINES {
            for (mut memory, _) in farthest_lines(&scene, kind) {
                comparison.call(kind, &mut memory, &origin);
            }
        }
    }
}

/// The compactions of the longest queues.
fn run_queues(comparison: &mut Comparison) {
    for (scene, layout) in queues() {
        let mut memory = scene.memory_on_its_sheet(&mut Random::new(0), Kind::Compact);
        memory.layout = Guarded::new(&layout);
        let origin = Origin {
            scene: &scene.name,
            damages: &[],
        };
        comparison.call(Kind::Compact, &mut memory, &origin);
    }
}

/// How many calls are made as they are accepted: fewer of what takes long on large jobs.
fn accepted(scene: &Scene, kind: Kind) -> usize {
    match kind {
        Kind::Program if !scene.is_small() || scene.text.len() > PROGRAM_TEXT => 0,
        Kind::Descent | Kind::GuidedRun if !scene.is_small() => 1,
        _ => ACCEPTED,
    }
}

/// One call on a job, with some damages done one after the other.
fn call(
    comparison: &mut Comparison,
    random: &mut Random,
    scene: &Scene,
    kind: Kind,
    damages: &[Damage],
) {
    let mut memory = scene.memory(random, kind);
    if kind.has_workspace() {
        memory.workspace = comparison.workspace(random);
    }
    for damage in damages {
        (damage.apply)(random, &mut memory);
    }
    let names: Vec<&'static str> = damages.iter().map(|damage| damage.name).collect();
    let origin = Origin {
        scene: &scene.name,
        damages: &names,
    };
    comparison.call(kind, &mut memory, &origin);
}

/// Damaged layout texts of a job, now and then with a damage beside.
fn run_layout_texts(comparison: &mut Comparison, random: &mut Random, scene: &Scene) {
    let (own, job) = damages(Kind::ReadLayout);
    let known = [&own, job].concat();
    for turn in 0..LAYOUT_TEXTS {
        let mut memory = scene.memory(random, Kind::ReadLayout);
        let mut text = memory.text.get().to_vec();
        for _ in 0..random.pick(&[1, 1, 2, 3]) {
            text = layout_text::damaged(random, &text);
            if text.is_empty() {
                break;
            }
        }
        memory.text = Guarded::new(&text);
        if turn == 0 {
            (random.pick(&known).apply)(random, &mut memory);
        }
        let origin = Origin {
            scene: &scene.name,
            damages: &["layout text"],
        };
        comparison.call(Kind::ReadLayout, &mut memory, &origin);
    }
}

/// A long list of lays and withdraws from a fresh sheet, some of them refused; the memory is carried from call to call.
fn run_sheet(comparison: &mut Comparison, random: &mut Random, scene: &Scene) {
    let origin = Origin {
        scene: &scene.name,
        damages: &["list of lays and withdraws"],
    };
    let mut memory = scene.memory(random, Kind::Fresh);
    comparison.call(Kind::Fresh, &mut memory, &origin);
    let (own, _) = damages(Kind::Lay);
    let refused: Vec<Damage> = own
        .into_iter()
        .filter(|damage| ["no such piece", "turn", "place to lay"].contains(&damage.name))
        .collect();
    for _ in 0..SHEET_CALLS.min(4 * scene.count() + 10) {
        scene.choose_lay(random, &mut memory);
        if random.chance(15) {
            (random.pick(&refused).apply)(random, &mut memory);
        }
        let kind = random.pick(&[Kind::Lay, Kind::Lay, Kind::Withdraw]);
        comparison.call(kind, &mut memory, &origin);
    }
}

/// A list of calls while one piece after the other is locked, some of them refused; the memory is carried from call to call. No call clears
/// a lock, and a locked piece stays where it lies.
fn run_cutting(comparison: &mut Comparison, random: &mut Random, scene: &Scene) {
    let origin = Origin {
        scene: &scene.name,
        damages: &["list of calls with locks"],
    };
    let mut memory = scene.memory(random, Kind::GuidedRun);
    let sheet = scene.memory(random, Kind::Fresh);
    (memory.record, memory.counts) = (sheet.record, sheet.counts);
    comparison.call(Kind::Fresh, &mut memory, &origin);
    let (refused, _) = damages(Kind::SetLock);
    for _ in 0..CUTTING_CALLS {
        let kind = random.pick(&WHILE_CUT);
        scene.choose_lay(random, &mut memory);
        if kind == Kind::SetLock {
            scene.choose_lock(random, &mut memory);
            if random.chance(40) {
                (random.pick(&refused).apply)(random, &mut memory);
            }
        }
        memory.workspace = match kind.has_workspace() {
            true => comparison.workspace(random),
            false => Guarded::new(&[]),
        };
        let before = memory.clone();
        comparison.call(kind, &mut memory, &origin);
        assert!(locked_stay(&before, &memory), "{kind:?} on {}", scene.name);
    }
}

/// Whether every piece that was locked is locked and has its entry of the layout.
fn locked_stay(before: &Memory, after: &Memory) -> bool {
    let places = before.layout.get().iter().zip(after.layout.get());
    let mut pieces = before.locks().zip(after.locks()).zip(places);
    pieces.all(|((was, is), (place, now))| !was || is && place == now)
}

/// Damaged job texts through the reader and, where they are short, through the program.
fn run_texts(comparison: &mut Comparison) {
    let mut random = Random::new(0);
    for kind in texts::kinds() {
        for (number, text) in kind.inputs.iter().enumerate() {
            let origin = Origin {
                scene: &format!("{} {number}", kind.name),
                damages: &[],
            };
            let mut memory = Memory::new(&mut random);
            memory.text = Guarded::new(text);
            // Some buffers are too short for some of the texts that are read.
            let (table, pixels) = (
                random.pick(&[64, 64, 3]),
                random.pick(&[65_536, 700, 700, 40]),
            );
            memory.table = Guarded::junk(&mut random, table);
            memory.pixels = Guarded::junk(&mut random, pixels);
            comparison.call(Kind::ReadJob, &mut memory, &origin);
            let far_too_long = text.len() > second::MAX_INPUT;
            if text.len() <= PROGRAM_TEXT || far_too_long {
                // Buffers that the output fits exactly, and by one byte not.
                let needed = second::run(text).len();
                let length = random.pick(&[0, needed - 1, needed, needed + 1, 4_096]);
                memory.output = Guarded::junk(&mut random, length);
                memory.workspace = comparison.workspace(&mut random);
                comparison.call(Kind::Program, &mut memory, &origin);
            }
        }
    }
}

#[cfg(test)]
mod tests {
    use second::calls::Cause;
    use second::compact::Compacted;

    use super::*;
    use crate::compaction::wrong::{self, Wrong};
    use crate::expected::{self, Returned};
    use crate::memory::result;

    /// The second program as the other side.
    fn same(kind: Kind, memory: &mut Memory) -> Returned {
        expected::call(kind, memory).returned
    }

    /// Compares a side on some small jobs of each kind. With steps of 31 every damage of every call comes up alone.
    fn compared(side: Side) -> Comparison {
        let mut comparison = Comparison::new(side);
        for (number, scene) in scenes().iter().enumerate() {
            if number % 31 == 0 && scene.is_small() {
                run_scene(&mut comparison, scene, number);
            }
        }
        comparison
    }

    /// Compares a side that is wrong about a kind of call; it has to be told, and nothing else.
    fn assert_told(kind: Kind, side: Side) {
        let comparison = compared(side);
        let summary = comparison.summary();
        assert!(!comparison.is_well(), "{kind:?}");
        assert_eq!(comparison.different_kinds(), [kind], "{summary}");
        assert!(summary.contains(&format!("\ndifferent: {kind:?} on ")));
    }

    #[test]
    fn the_same_side_differs_nowhere() {
        let summary = compared(&same).summary();
        assert!(summary.ends_with(" calls, 0 different"), "{summary}");
    }

    #[test]
    fn the_same_inputs_each_time() {
        assert_eq!(compared(&same).summary(), compared(&same).summary());
    }

    #[test]
    fn the_places_of_a_pair_the_other_way_round() {
        assert_told(Kind::Check, &|kind, memory| {
            let mut returned = same(kind, memory);
            if kind == Kind::Check {
                returned.reply.swap(1, 2);
            }
            returned
        });
    }

    /// Every call that depends on the gap and not on its range alone.
    const OF_CONFLICTS: [Kind; 15] = {
        use Kind::*;
        [
            NoFitRow,
            NoFitColumn,
            SharesPixel,
            Depth,
            Penalty,
            WeightedSum,
            PlainSum,
            Preview,
            Check,
            Compact,
            CutLines,
            CutStep,
            LineSearch,
            Descent,
            GuidedRun,
        ]
    };

    /// Compares a side that takes a gap that a job may have for another one: every call that depends on it has to be told, and no other.
    fn assert_gap_told(gap: fn(usize) -> usize) {
        let side = |kind: Kind, memory: &mut Memory| {
            let right = memory.gap;
            if kind.is_lent_a_job() && right <= 8 {
                memory.gap = gap(right);
            }
            let returned = same(kind, memory);
            memory.gap = right;
            returned
        };
        let comparison = compared(&side);
        let summary = comparison.summary();
        assert_eq!(comparison.different_kinds(), OF_CONFLICTS, "{summary}");
    }

    #[test]
    fn a_gap_that_is_not_kept() {
        assert_gap_told(|_| 0);
    }

    #[test]
    fn a_gap_around_both_pieces() {
        assert_gap_told(|gap| (2 * gap).min(8));
    }

    #[test]
    fn a_gap_of_one_more_or_less() {
        assert_gap_told(|gap| gap.saturating_sub(1));
        assert_gap_told(|gap| (gap + 1).min(8));
    }

    #[test]
    fn a_raise_only_where_pixels_are_shared() {
        // The weights of pairs that conflict and share no pixel at the end of one round stay.
        assert_told(Kind::GuidedRun, &|kind, memory| {
            let before = memory.clone();
            let returned = same(kind, memory);
            let one_round = memory.numbers.rounds == 1 && returned.reply[0] == 0;
            if kind == Kind::GuidedRun && one_round {
                // A round is a descent, so its end is the descent's.
                let mut end = before.clone();
                same(Kind::Descent, &mut end);
                end.gap = 0;
                let count = memory.count;
                let pairs = (0..count).flat_map(|i| (i + 1..count).map(move |k| (i, k)));
                for (place, (i, k)) in pairs.enumerate() {
                    (end.numbers.i, end.numbers.k) = (i, k);
                    same(Kind::SharesPixel, &mut end);
                    if end.bytes.get()[result(0)] == 0 {
                        memory.weights.get_mut()[place] = before.weights.get()[place];
                    }
                }
            }
            returned
        });
    }

    #[test]
    fn a_gap_that_is_not_handed_out() {
        // The number that the caller's memory held stays.
        assert_told(Kind::ReadJob, &|kind, memory| {
            let before = memory.sizes.get()[result(3)];
            let returned = same(kind, memory);
            if kind == Kind::ReadJob {
                memory.sizes.get_mut()[result(3)] = before;
            }
            returned
        });
    }

    #[test]
    fn a_gap_that_is_cut_to_a_byte() {
        assert_told(Kind::Fresh, &|kind, memory| {
            let right = memory.gap;
            if kind == Kind::Fresh {
                memory.gap %= 256;
            }
            let returned = same(kind, memory);
            memory.gap = right;
            returned
        });
    }

    #[test]
    fn the_largest_depth_and_the_largest_penalty() {
        for ((scene, layout), expected) in largest().into_iter().zip([[263, 136], [199, 199]]) {
            let mut memory = scene.memory(&mut Random::new(1), Kind::Depth);
            memory.layout = Guarded::new(&layout);
            (memory.numbers.i, memory.numbers.k) = (0, 1);
            let depths = [0, 1].map(|vertical| {
                memory.numbers.vertical = vertical;
                same(Kind::Depth, &mut memory);
                memory.halves.get()[result(0)]
            });
            assert_eq!(depths, expected);
            same(Kind::Penalty, &mut memory);
            assert_eq!(memory.halves.get()[result(0)], expected[0].min(expected[1]));
        }
    }

    #[test]
    fn the_farthest_offsets_and_the_most_runs() {
        let every_second = (0..255).map(|number| [2 * number - 254, 1]);
        let around_the_middles = [-254, -127, 0, 127, 254].map(|middle| [middle - 8, 17]);
        let expected = [
            vec![[-254, 509]],
            vec![[-262, 525]],
            every_second.collect(),
            around_the_middles.to_vec(),
        ];
        for (scene, expected) in farthest().iter().zip(expected) {
            for kind in Kind::NO_FIT_LINES {
                for (mut memory, meet) in farthest_lines(scene, kind) {
                    assert_eq!(same(kind, &mut memory).reply[0], 0);
                    let found = &memory.runs.get()[..memory.sizes.get()[result(0)]];
                    let expected = if meet { &expected[..] } else { &[] };
                    let offset = memory.numbers.offset;
                    assert_eq!(found, expected, "{}, {kind:?} at {offset}", scene.name);
                }
            }
        }
    }

    #[test]
    fn the_farthest_offsets_across() {
        let offsets = farthest().map(|scene| {
            let lines = farthest_lines(&scene, Kind::NoFitRow).into_iter();
            let meeting = lines.filter(|(_, meet)| *meet);
            let offsets = meeting.map(|(memory, _)| memory.numbers.offset);
            offsets.fold([0, 0], |[low, high], offset| {
                [low.min(offset), high.max(offset)]
            })
        });
        assert_eq!(offsets, [[-254, 254], [-262, 262], [-2, 2], [-10, 10]]);
    }

    /// The farthest no-fit lines of a side.
    fn compared_farthest(side: Side) -> Comparison {
        let mut comparison = Comparison::new(side);
        run_farthest(&mut comparison);
        comparison
    }

    #[test]
    fn the_farthest_lines_have_all_that_has_to_come_up_in_lines() {
        let comparison = compared_farthest(&same);
        let missing = comparison.missing();
        let of_lines = missing.iter().filter(|text| text.contains(" finds "));
        assert_eq!(of_lines.count(), 0, "{missing:?}");
        // Of two scenes each, of four pairs at three offsets each; those with the most runs are of one scene.
        let summary = comparison.summary();
        for kind in Kind::NO_FIT_LINES {
            let ends =
                "a run from -254: 24, a run to 254: 24, a run from -262: 24, a run to 262: 24";
            let line = format!("\ncalls of {kind:?} that found {ends}, 255 runs: 12\n");
            assert!(summary.contains(&line), "{summary}");
        }
    }

    #[test]
    fn offsets_that_are_cut_off() {
        // Runs of a job without a gap, or with the largest, are kept within offsets that are one too few at an end.
        for (gap, kept) in [
            (0, -253..=254),
            (0, -254..=253),
            (8, -261..=262),
            (8, -262..=261),
        ] {
            let side = |kind: Kind, memory: &mut Memory| {
                let returned = same(kind, memory);
                if memory.gap == gap {
                    let found = memory.sizes.get()[result(0)];
                    for [first, count] in &mut memory.runs.get_mut()[..found] {
                        let end = (*first + *count - 1).min(*kept.end());
                        *first = (*first).max(*kept.start());
                        *count = end - *first + 1;
                    }
                }
                returned
            };
            let different = compared_farthest(&side).different_kinds();
            assert_eq!(different, Kind::NO_FIT_LINES, "{kept:?}, gap {gap}");
        }
    }

    #[test]
    fn a_withdraw_that_does_nothing() {
        assert_told(Kind::Withdraw, &|kind, memory| match kind {
            Kind::Withdraw => same(kind, &mut memory.clone()),
            _ => same(kind, memory),
        });
    }

    #[test]
    fn all_that_has_to_come_up_with_locks_and_in_compactions() {
        let mut comparison = compared(&same);
        run_queues(&mut comparison);
        let missing = comparison.missing();
        let words = [
            "no call is ",
            "of Compact ",
            "by 15,",
            "by 16,",
            "LentLock",
            "Station",
            "Locked",
        ];
        let of_these = |text: &&String| words.iter().any(|word| text.contains(word));
        assert_eq!(missing.iter().filter(of_these).count(), 0, "{missing:?}");
    }

    #[test]
    fn a_lock_that_a_second_call_clears() {
        assert_told(Kind::SetLock, &|kind, memory| {
            let was = memory.locks().nth(memory.numbers.i);
            let returned = same(kind, memory);
            if kind == Kind::SetLock && returned.reply[0] == 0 && was == Some(true) {
                let piece = memory.numbers.i;
                memory.table.get_mut()[piece][3] = 0;
            }
            returned
        });
    }

    #[test]
    fn every_other_station_as_the_cutters() {
        assert_told(Kind::SetLock, &|kind, memory| {
            let station = memory.numbers.station;
            if kind == Kind::SetLock && station > 1 {
                memory.numbers.station = 1;
            }
            let returned = same(kind, memory);
            memory.numbers.station = station;
            returned
        });
    }

    #[test]
    fn a_planner_who_is_told_before_the_piece() {
        assert_told(Kind::SetLock, &|kind, memory| {
            let mut returned = same(kind, memory);
            let planner = memory.numbers.station == 0;
            if kind == Kind::SetLock && planner && returned.reply[0] == 9 {
                returned.reply[0] = 16;
            }
            returned
        });
    }

    /// Makes the second program's call on a table whose locks of right numbers are taken for others; the table is as before after it.
    fn with_locks(kind: Kind, memory: &mut Memory, lock: fn(u8) -> u8) -> Returned {
        let before = memory.table.clone();
        for entry in memory.table.get_mut() {
            entry[3] = lock(entry[3]);
        }
        let returned = same(kind, memory);
        memory.table = before;
        returned
    }

    /// The lock of a free piece in place of that of a locked one.
    fn freed(lock: u8) -> u8 {
        if lock == 1 {
            0
        } else {
            lock
        }
    }

    #[test]
    fn locked_pieces_that_are_stacked_shifted_or_withdrawn() {
        for wrong in [Kind::Start, Kind::Descent, Kind::GuidedRun, Kind::Withdraw] {
            assert_told(wrong, &|kind, memory| {
                if kind == wrong {
                    return with_locks(kind, memory, freed);
                }
                same(kind, memory)
            });
        }
    }

    #[test]
    fn a_start_that_reads_the_entries_of_free_pieces() {
        assert_told(Kind::Start, &|kind, memory| {
            if kind == Kind::Start {
                let mut all = memory.clone();
                let returned = with_locks(kind, &mut all, |lock| lock.max(1));
                if returned.reply[0] != 0 {
                    return returned;
                }
            }
            same(kind, memory)
        });
    }

    #[test]
    fn a_lock_above_1_that_is_taken_for_locked() {
        assert_told(Kind::Fresh, &|kind, memory| match kind {
            Kind::Fresh => with_locks(kind, memory, |lock| lock.min(1)),
            _ => same(kind, memory),
        });
    }

    #[test]
    fn a_withdraw_that_tells_the_lock_first() {
        assert_told(Kind::Withdraw, &|kind, memory| {
            let mut returned = same(kind, memory);
            let locked = memory.locks().nth(memory.numbers.i) == Some(true);
            if kind == Kind::Withdraw && returned.reply[0] == 14 && locked {
                returned.reply[0] = 15;
            }
            returned
        });
    }

    #[test]
    fn queues_take_as_many_passes_as_they_have_pieces() {
        for ((scene, layout), slid) in queues().into_iter().zip([64 * 4_032, 64 * 448]) {
            let memory = scene.memory_on_its_sheet(&mut Random::new(0), Kind::Compact);
            let mut pushed = layout.clone();
            let compacted = second::calls::compact(&memory.job(), &mut pushed);
            assert_eq!(compacted, Ok(Compacted { slid, passes: 64 }));
            assert_eq!(pushed[63], [0; 3]);
        }
    }

    #[test]
    fn pixels_slid_that_are_cut_to_sixteen_bits() {
        let side = |kind: Kind, memory: &mut Memory| {
            let returned = same(kind, memory);
            memory.words.get_mut()[result(0)] %= 65_536;
            returned
        };
        let mut comparison = Comparison::new(&side);
        run_queues(&mut comparison);
        assert_eq!(comparison.different_kinds(), [Kind::Compact]);
    }

    /// Makes every accepted compaction by itself, wrong in one respect or in none.
    fn compacting(wrong: Option<Wrong>) -> impl Fn(Kind, &mut Memory) -> Returned {
        move |kind, memory| {
            let returned = same(kind, &mut memory.clone());
            if kind != Kind::Compact || returned.reply[0] != 0 {
                return same(kind, memory);
            }
            wrong::compact(memory, wrong);
            returned
        }
    }

    #[test]
    fn compactions_that_are_wrong_in_one_respect() {
        let summary = compared(&compacting(None)).summary();
        assert!(summary.ends_with(" calls, 0 different"), "{summary}");
        for wrong in Wrong::ALL {
            assert_told(Kind::Compact, &compacting(Some(wrong)));
        }
    }

    #[test]
    fn a_compaction_that_slides_before_it_is_refused() {
        assert_told(Kind::Compact, &|kind, memory| {
            let mut slid = memory.clone();
            let returned = same(kind, memory);
            if kind == Kind::Compact && returned.reply[0] == 12 {
                wrong::compact(&mut slid, None);
                *memory = slid;
            }
            returned
        });
    }

    #[test]
    fn a_refused_lay_that_writes() {
        assert_told(Kind::Lay, &|kind, memory| {
            let returned = same(kind, memory);
            let refused = kind == Kind::Lay && returned.reply[0] == 13;
            if let Some(count) = memory.counts.get_mut().first_mut().filter(|_| refused) {
                *count += 1;
            }
            returned
        });
    }

    #[test]
    fn a_trial_invented() {
        assert_told(Kind::Descent, &|kind, memory| {
            let returned = same(kind, memory);
            if kind == Kind::Descent && returned.reply[0] == 0 {
                memory.words.get_mut()[result(1)] += 1;
            }
            returned
        });
    }

    #[test]
    fn a_refused_run_that_has_used_its_workspace() {
        assert_told(Kind::GuidedRun, &|kind, memory| {
            let returned = same(kind, memory);
            let refused = kind == Kind::GuidedRun && returned.reply[0] != 0;
            if let Some(word) = memory.workspace.get_mut().last_mut().filter(|_| refused) {
                *word ^= 1;
            }
            returned
        });
    }

    #[test]
    fn what_a_run_leaves_in_its_workspace_is_free() {
        let summary = compared(&|kind, memory| {
            let returned = same(kind, memory);
            if kind.has_workspace() && returned.reply[0] == 0 {
                memory.workspace.get_mut().fill(7);
            }
            returned
        })
        .summary();
        assert!(summary.ends_with(" calls, 0 different"), "{summary}");
    }

    #[test]
    fn a_text_that_goes_beyond_what_is_written() {
        assert_told(Kind::WriteLayout, &|kind, memory| {
            let returned = same(kind, memory);
            let written = memory.sizes.get()[result(0)];
            if kind == Kind::WriteLayout && returned.reply[0] == 0 {
                let beyond = memory.output.get_mut().get_mut(written);
                beyond.into_iter().for_each(|byte| *byte ^= 255);
            }
            returned
        });
    }

    #[test]
    fn a_later_cause_that_wins() {
        // A corner that is outside in every turn is told before a turn that is not allowed.
        assert_told(Kind::PlainSum, &|kind, memory| {
            let mut returned = same(kind, memory);
            let mut corners = memory.layout.get().iter();
            let outside = corners.any(|&[_, x, y]| x >= 4_096 || y >= 4_096);
            if kind == Kind::PlainSum && returned.reply[0] == 9 && outside {
                returned.reply[0] = 10;
            }
            returned
        });
    }

    /// The entry that a preview would give its piece.
    fn entry_shown(memory: &Memory) -> [u16; 3] {
        let numbers = memory.numbers;
        [numbers.turn, numbers.x, numbers.y]
    }

    #[test]
    fn a_preview_that_makes_the_move() {
        assert_told(Kind::Preview, &|kind, memory| {
            let returned = same(kind, memory);
            if kind == Kind::Preview && returned.reply[0] == 0 {
                let (piece, entry) = (memory.numbers.i, entry_shown(memory));
                memory.layout.get_mut()[piece] = entry;
            }
            returned
        });
    }

    #[test]
    fn a_preview_of_the_layout_as_it_is() {
        assert_told(Kind::Preview, &|kind, memory| {
            let returned = same(kind, memory);
            if kind == Kind::Preview && returned.reply[0] == 0 {
                let mut stays = memory.clone();
                let numbers = &mut stays.numbers;
                [numbers.turn, numbers.x, numbers.y] = memory.layout.get()[numbers.i];
                same(kind, &mut stays);
                (memory.words, memory.sizes) = (stays.words, stays.sizes);
            }
            returned
        });
    }

    #[test]
    fn a_preview_that_asks_the_new_placement_alone() {
        assert_told(Kind::Preview, &|kind, memory| {
            if kind != Kind::Preview {
                return same(kind, memory);
            }
            let before = memory.layout.clone();
            let entry = entry_shown(memory);
            if let Some(old) = memory.layout.get_mut().get_mut(memory.numbers.i) {
                *old = entry;
            }
            let returned = same(kind, memory);
            memory.layout = before;
            returned
        });
    }

    #[test]
    fn lines_that_are_written_though_the_buffer_is_too_short() {
        assert_told(Kind::CutLines, &|kind, memory| {
            let expected = expected::call(kind, memory);
            if kind == Kind::CutLines && expected.cause == Some(Cause::BufferShort) {
                let mut roomy = memory.clone();
                let room = sigbrol::cut_lines_capacity(memory.rows, memory.columns);
                roomy.cut_lines = Guarded::new(&vec![[0; 4]; room]);
                expected::call(kind, &mut roomy);
                let lines = memory.cut_lines.get_mut();
                lines.copy_from_slice(&roomy.cut_lines.get()[..lines.len()]);
            }
            expected.returned
        });
    }

    #[test]
    fn lines_that_are_counted_and_not_written() {
        assert_told(Kind::CutLines, &|kind, memory| {
            let before = memory.cut_lines.clone();
            let returned = same(kind, memory);
            memory.cut_lines = before;
            returned
        });
    }

    #[test]
    fn a_point_that_is_written_where_the_list_is_done() {
        for wrong in [Kind::CutStep, Kind::LineStep] {
            assert_told(wrong, &|kind, memory| {
                let returned = same(kind, memory);
                let done = returned.reply[0] == 0 && memory.bytes.get()[result(0)] == 0;
                if kind == wrong && done {
                    memory.doubles.get_mut()[result(0)] = 0.0_f64.to_bits();
                }
                returned
            });
        }
    }

    #[test]
    fn x_and_y_the_other_way_round() {
        for wrong in [Kind::CutStep, Kind::LineStep] {
            assert_told(wrong, &|kind, memory| {
                let returned = same(kind, memory);
                let a_point = returned.reply[0] == 0 && memory.bytes.get()[result(0)] != 0;
                if kind == wrong && a_point {
                    memory.doubles.get_mut().swap(result(0), result(1));
                }
                returned
            });
        }
    }

    #[test]
    fn lift_and_cut_the_other_way_round() {
        for wrong in [Kind::CutStep, Kind::LineStep] {
            assert_told(wrong, &|kind, memory| {
                if kind == wrong {
                    memory.numbers.step ^= 1;
                }
                same(kind, memory)
            });
        }
    }

    #[test]
    fn another_number_of_the_stretch() {
        assert_told(Kind::StretchRefusal, &|kind, memory| {
            let mut returned = same(kind, memory);
            if kind == Kind::StretchRefusal && returned.value == 9 {
                returned.value = 8;
            }
            returned
        });
    }

    #[test]
    fn causes_that_do_not_come_up_are_named() {
        let comparison = Comparison::new(&same);
        let causes: usize = Kind::ALL.iter().map(|kind| kind.causes().len()).sum();
        let missing = comparison.missing();
        assert_eq!(missing.len(), causes + Kind::ALL.len() + 3 + 2 * 5 + 9 + 8);
        assert!(missing.contains(&"no call of SetLock is refused by 16, NotTheCutter".to_string()));
        assert!(missing.contains(&"no call is a lock set again".to_string()));
        assert!(missing.contains(&"no call is a compaction that slides nothing".to_string()));
        assert!(missing.contains(&"no call of Lay is refused by 13, Laid".to_string()));
        assert!(missing.contains(&"no call of NoFitColumn finds a run to 262".to_string()));
        assert!(!comparison.is_well());
    }
}
