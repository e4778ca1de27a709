//! What document 02 says of every compaction, and what has to come up in some of them.

use second::calls;

use crate::memory::{result, Memory};

/// What has to come up in compactions.
pub const OF_COMPACTIONS: [&str; 8] = [
    "a compaction that slides nothing",
    "a compaction by 65,536 pixels and more",
    "a compaction of more than one pass",
    "a compaction to a larger used length",
    "a compaction to a smaller used length",
    "a compaction that slides pieces which keep a gap",
    "a compaction that slides pieces beside locked ones",
    "a compaction of locked pieces alone",
];

/// Sheet pixels times pieces up to which every piece of an answer is asked whether it could slide further.
const ASKED: usize = 30_000;

/// What has to come up in compactions and does in one that was accepted.
pub fn of_compaction(before: &Memory, after: &Memory) -> impl Iterator<Item = &'static str> {
    let again = calls::compact(&before.job(), before.layout.clone().get_mut());
    let passes = again.map_or(0, |compacted| compacted.passes);
    let slid = slid(after);
    let [was_used, is_used] = [before, after].map(used_length);
    let locked = before.locks().filter(|&locked| locked).count();
    let found = [
        slid == 0,
        slid >= 65_536,
        passes > 1,
        is_used > was_used,
        is_used < was_used,
        slid > 0 && before.gap > 0,
        slid > 0 && locked > 0,
        locked == before.count,
    ];
    let seen = OF_COMPACTIONS.into_iter().zip(found);
    seen.filter_map(|(seen, found)| found.then_some(seen))
}

/// Asks of an accepted compaction all that document 02 says of its answer.
pub fn assert_claims(before: &Memory, after: &Memory) {
    let (job, layout) = (after.job(), after.layout.get());
    assert_eq!(calls::check(&job, layout), Ok(()));
    let mut again = layout.to_vec();
    let nothing = calls::compact(&job, &mut again).map(|compacted| compacted.slid);
    assert_eq!(nothing, Ok(0));
    assert_eq!(again, layout);

    let places = || before.layout.get().iter().zip(layout);
    let [fall_x, fall_y] = [1, 2].map(|field| {
        let fall = |(was, is): (&[u16; 3], &[u16; 3])| was[field].checked_sub(is[field]);
        let falls: Option<Vec<u16>> = places().map(fall).collect();
        let falls = falls.expect("no corner has a larger x or y");
        falls.into_iter().map(u64::from).sum::<u64>()
    });
    assert_eq!(slid(after), fall_x + fall_y);
    assert!(places().all(|(was, is)| was[0] == is[0]), "turns stay");
    let mut locked = before.locks().zip(places());
    assert!(locked.all(|(locked, (was, is))| !locked || was == is));
    assert!(right_end(after) <= right_end(before));

    if before.rows * before.columns * before.count <= ASKED {
        let free = after.locks().enumerate().filter(|(_, locked)| !locked);
        for (piece, _) in free {
            for field in [1, 2] {
                let mut further = layout.to_vec();
                if let Some(corner) = layout[piece][field].checked_sub(1) {
                    further[piece][field] = corner;
                    assert!(calls::check(&job, &further).is_err(), "piece {piece}");
                }
            }
        }
    }
}

/// The pixels slid.
fn slid(after: &Memory) -> u64 {
    after.words.get()[result(0)]
}

/// The used length of a layout that is right.
fn used_length(memory: &Memory) -> usize {
    calls::used_length(&memory.job(), memory.layout.get()).expect("the layout is right")
}

/// The largest right end of such a layout.
fn right_end(memory: &Memory) -> usize {
    let first = memory.layout.get().iter().map(|&[_, x, _]| x).min();
    usize::from(first.unwrap_or(0)) + used_length(memory)
}

/// Compactions that are wrong in one respect.
#[cfg(test)]
pub mod wrong {
    use std::cmp::Reverse;

    use second::job::{Job, Piece};
    use second::shape::{Shape, Turn};

    use super::*;

    /// What a compaction does wrong.
    #[derive(Clone, Copy, Debug, PartialEq, Eq)]
    pub enum Wrong {
        JumpsOverPieces,
        DownFirst,
        OnePass,
        LargestFirst,
        SlidesLocked,
        CountsPasses,
        FullBoxes,
    }

    impl Wrong {
        pub const ALL: [Wrong; 7] = [
            Wrong::JumpsOverPieces,
            Wrong::DownFirst,
            Wrong::OnePass,
            Wrong::LargestFirst,
            Wrong::SlidesLocked,
            Wrong::CountsPasses,
            Wrong::FullBoxes,
        ];
    }

    /// Compacts a layout that passes the check, wrong in one respect or in none.
    pub fn compact(memory: &mut Memory, wrong: Option<Wrong>) {
        let job = memory.job().job().expect("the job is right");
        let is = |one: Wrong| wrong == Some(one);
        let shape = |(piece, &[turn, ..]): (&Piece, &[u16; 3])| {
            let shape = piece.shape.turned(Turn::ALL[usize::from(turn) / 90]);
            match is(Wrong::FullBoxes) {
                true => Shape::new(shape.columns(), vec![true; shape.cells().count()]),
                false => shape,
            }
        };
        let pieces = job.pieces.iter().zip(memory.layout.get());
        let shapes: Vec<Shape> = pieces.map(shape).collect();
        let mut order: Vec<usize> = (0..memory.count)
            .filter(|&piece| is(Wrong::SlidesLocked) || !job.pieces[piece].locked)
            .collect();
        if is(Wrong::LargestFirst) {
            order.sort_by_key(|&piece| Reverse(shapes[piece].pixels().count()));
        }
        let (mut slid, mut passes) = (0, 0);
        loop {
            let mut in_this_pass = 0;
            for &piece in &order {
                let near = near_others(&job, &shapes, memory.layout.get(), piece);
                let is_free = |[_, x, y]: [u16; 3]| {
                    let corner = usize::from(y) * job.columns + usize::from(x);
                    let mut pixels = shapes[piece].pixels();
                    !pixels.any(|(across, up)| near[corner + up * job.columns + across])
                };
                in_this_pass += slide(&mut memory.layout.get_mut()[piece], is_free, wrong);
            }
            slid += in_this_pass;
            if in_this_pass == 0 {
                break;
            }
            passes += 1;
            if is(Wrong::OnePass) {
                break;
            }
        }
        memory.words.get_mut()[result(0)] = if is(Wrong::CountsPasses) {
            passes
        } else {
            slid
        };
    }

    /// Slides a piece, given which entries of the layout it may have; gives the pixels slid.
    fn slide(
        entry: &mut [u16; 3],
        is_free: impl Fn([u16; 3]) -> bool,
        wrong: Option<Wrong>,
    ) -> u64 {
        let fields = if wrong == Some(Wrong::DownFirst) {
            [2, 1]
        } else {
            [1, 2]
        };
        let mut slid = 0;
        loop {
            let before_round = slid;
            for field in fields {
                let at = |corner: u16| {
                    let mut entry = *entry;
                    entry[field] = corner;
                    entry
                };
                let mut corner = entry[field];
                loop {
                    // The next pixel alone, or the nearest of all from there on.
                    let mut further = (0..corner).rev();
                    let to = match wrong {
                        Some(Wrong::JumpsOverPieces) => further.find(|&to| is_free(at(to))),
                        _ => further.next().filter(|&to| is_free(at(to))),
                    };
                    let Some(to) = to else {
                        break;
                    };
                    slid += u64::from(corner - to);
                    corner = to;
                }
                *entry = at(corner);
            }
            if slid == before_round {
                return slid;
            }
        }
    }

    /// For each pixel of the sheet whether another piece comes within the gap of it.
    fn near_others(job: &Job, shapes: &[Shape], layout: &[[u16; 3]], piece: usize) -> Vec<bool> {
        let mut near = vec![false; job.rows * job.columns];
        for other in (0..layout.len()).filter(|&other| other != piece) {
            let [_, x, y] = layout[other].map(usize::from);
            for (across, up) in shapes[other].widened(job.gap).pixels() {
                let [x, y] = [x + across, y + up].map(|end| end.wrapping_sub(job.gap));
                if x < job.columns && y < job.rows {
                    near[y * job.columns + x] = true;
                }
            }
        }
        near
    }
}
