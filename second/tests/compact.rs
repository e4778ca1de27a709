//! Compaction of small layouts, piece by piece, and of random ones beside the definition over pixel sets.

mod oracle;

use oracle::{Lcg, Place};
use second::compact::{self, Compacted};
use second::job;
use second::layout::{self, Placement};
use second::shape::Turn;

/// A piece by its marks, the bottom row first, whether it is locked, and its degrees and corner.
type Given<'a> = (&'a [&'a str], bool, [usize; 3]);

/// What a compaction of some pieces on a sheet of so many rows and columns, with a gap, gives.
struct Outcome {
    corners: Vec<[usize; 2]>,
    slid: u64,
    passes: usize,
    /// The used length before and after.
    used: [usize; 2],
}

/// Compacts some pieces on a sheet: rows, columns and gap.
fn compacted([rows, columns, gap]: [usize; 3], pieces: &[Given]) -> Outcome {
    let mut text = format!("job,3,{rows},{columns},{},{gap}\n", pieces.len());
    for (number, (marks, locked, _)) in pieces.iter().enumerate() {
        let (l, w, lock) = (marks[0].len(), marks.len(), u8::from(*locked));
        text += &format!("piece,{number},{l},{w},15,{lock}\n");
        text.extend(marks.iter().map(|row| format!("row,{row}\n")));
    }
    let job = job::read(text.as_bytes()).expect("the job is right");
    let place = |&(_, _, [degrees, x, y]): &Given| {
        let turn = Turn::ALL[degrees / 90];
        Placement { turn, x, y }
    };
    let given: Vec<Placement> = pieces.iter().map(place).collect();
    let mut places = given.clone();
    let Compacted { slid, passes } = compact::compact(&job, &mut places);
    let same_turns = given.iter().zip(&places).all(|(a, b)| a.turn == b.turn);
    assert!(same_turns);
    Outcome {
        corners: places.iter().map(|place| [place.x, place.y]).collect(),
        slid,
        passes,
        used: [&given, &places].map(|places| layout::used_length(&job, places)),
    }
}

const PIXEL: &[&str] = &["#"];
const SQUARE: &[&str] = &["##", "##"];
const RING: &[&str] = &["####", "#..#", "#..#", "####"];
const ANGLE: &[&str] = &["###", "#..", "#.."];

#[test]
fn the_used_length_may_grow() {
    let outcome = compacted(
        [2, 2, 0],
        &[(PIXEL, false, [0, 1, 1]), (PIXEL, false, [0, 1, 0])],
    );
    assert_eq!(outcome.corners, [[0, 0], [1, 0]]);
    assert_eq!((outcome.slid, outcome.passes), (2, 1));
    assert_eq!(outcome.used, [1, 2]);
}

#[test]
fn nothing_to_slide() {
    let outcome = compacted([4, 9, 0], &[(SQUARE, false, [0, 0, 0])]);
    assert_eq!((outcome.slid, outcome.passes), (0, 0));
    let outcome = compacted([4, 9, 0], &[(SQUARE, false, [270, 7, 2])]);
    assert_eq!(outcome.corners, [[0, 0]]);
    assert_eq!((outcome.slid, outcome.passes), (9, 1));
}

#[test]
fn a_piece_in_a_hole_stays_in_it() {
    let ring_and_pixel = |ring_locked| {
        let pieces = [(RING, ring_locked, [0, 3, 2]), (PIXEL, false, [0, 5, 4])];
        let outcome = compacted([8, 9, 0], &pieces);
        (outcome.corners, outcome.slid)
    };
    // The pixel goes to the hole's lower left; it holds the ring up while it lies in the way.
    assert_eq!(ring_and_pixel(true), (vec![[3, 2], [4, 3]], 2));
    assert_eq!(ring_and_pixel(false), (vec![[0, 0], [1, 1]], 5 + 7));
}

#[test]
fn a_pixel_slides_into_a_notch() {
    let pieces = [(ANGLE, true, [0, 2, 0]), (PIXEL, false, [0, 7, 2])];
    let outcome = compacted([4, 9, 0], &pieces);
    // Along the row until the angle's upright bar, then down onto its foot: inside its box.
    assert_eq!(outcome.corners, [[2, 0], [3, 1]]);
    assert_eq!((outcome.slid, outcome.passes), (5, 1));
}

#[test]
fn a_locked_piece_stays_and_blocks() {
    for (locked, corners) in [(true, [[5, 0], [6, 0]]), (false, [[0, 0], [1, 0]])] {
        let pieces = [(PIXEL, locked, [0, 5, 0]), (PIXEL, false, [0, 8, 0])];
        assert_eq!(compacted([1, 9, 0], &pieces).corners, corners);
    }
    let pieces = [(PIXEL, true, [0, 5, 0]), (SQUARE, true, [90, 7, 2])];
    let outcome = compacted([4, 9, 0], &pieces);
    assert_eq!(outcome.corners, [[5, 0], [7, 2]]);
    assert_eq!((outcome.slid, outcome.passes), (0, 0));
}

#[test]
fn a_gap_is_kept() {
    for gap in 0..=8 {
        let pieces = [(PIXEL, true, [0, 0, 0]), (SQUARE, false, [0, 12, 9])];
        let outcome = compacted([11, 14, gap], &pieces);
        // To the left edge far above the pixel, where there is no gap to keep, then down to it.
        assert_eq!(outcome.corners, [[0, 0], [0, 1 + gap]]);
        let pieces = [(PIXEL, true, [0, 0, 0]), (SQUARE, false, [0, 12, 1])];
        assert_eq!(
            compacted([3, 14, gap], &pieces).corners[1],
            match gap {
                // Above the pixel there is a row for it.
                0 => [0, 1],
                gap => [1 + gap, 0],
            }
        );
    }
}

#[test]
fn more_passes_than_one() {
    // Each pixel but the last waits for the one behind it in number and left of it.
    let pieces = [4, 3, 2, 1].map(|x| (PIXEL, false, [0, x, 0]));
    let outcome = compacted([1, 9, 0], &pieces);
    assert_eq!(outcome.corners, [[3, 0], [2, 0], [1, 0], [0, 0]]);
    assert_eq!((outcome.slid, outcome.passes), (4, 4));
    // By rising number one pass is enough.
    let pieces = [1, 2, 3, 4].map(|x| (PIXEL, false, [0, x, 0]));
    let outcome = compacted([1, 9, 0], &pieces);
    assert_eq!((outcome.slid, outcome.passes), (4, 1));
}

#[test]
fn left_comes_before_down() {
    let pieces = [(PIXEL, true, [0, 0, 0]), (PIXEL, false, [0, 1, 1])];
    assert_eq!(compacted([2, 2, 0], &pieces).corners[1], [0, 1]);
}

#[test]
fn left_comes_again_after_down() {
    // A wall with a gate at the bottom: the pixel slides to the wall, down it and through the gate.
    let wall = &["#", "#", "#"][..];
    let pieces = [(wall, true, [0, 2, 1]), (PIXEL, false, [0, 5, 3])];
    let outcome = compacted([4, 9, 0], &pieces);
    assert_eq!(outcome.corners[1], [0, 0]);
    assert_eq!((outcome.slid, outcome.passes), (8, 1));
}

#[test]
fn no_piece_is_jumped_over() {
    let pieces = [(PIXEL, true, [0, 3, 0]), (PIXEL, false, [0, 7, 0])];
    assert_eq!(compacted([1, 9, 0], &pieces).corners[1], [4, 0]);
    let pieces = [(PIXEL, true, [0, 0, 3]), (PIXEL, false, [0, 0, 7])];
    assert_eq!(compacted([9, 1, 0], &pieces).corners[1], [0, 4]);
}

#[test]
fn pieces_slide_by_number_and_not_by_size() {
    // Both want the corner; the pixel has the lower number.
    let pieces = [(PIXEL, false, [0, 5, 0]), (SQUARE, false, [0, 6, 0])];
    let outcome = compacted([2, 9, 0], &pieces);
    assert_eq!(outcome.corners, [[0, 0], [1, 0]]);
    let pieces = [(PIXEL, false, [0, 8, 0]), (SQUARE, false, [0, 6, 0])];
    let outcome = compacted([2, 9, 0], &pieces);
    assert_eq!(outcome.corners, [[2, 0], [0, 0]]);
    assert_eq!(outcome.passes, 2);
}

/// The program's form of a layout.
fn placements(layout: &[Place]) -> Vec<Placement> {
    let placement = |place: &Place| Placement {
        turn: Turn::ALL[place.turn as usize],
        x: place.corner.0 as usize,
        y: place.corner.1 as usize,
    };
    layout.iter().map(placement).collect()
}

/// The largest right end of a layout.
fn right_end(problem: &oracle::Problem, layout: &[Place]) -> i32 {
    let first = layout.iter().map(|place| place.corner.0).min();
    first.unwrap_or(0) + problem.used_length(layout)
}

#[test]
fn random_layouts() {
    let mut lcg = Lcg(23);
    let (mut slid_some, mut more_passes, mut longer, mut with_locks) = (0, 0, 0, 0);
    for number in 0..900 {
        let problem = match number % 3 {
            0 => lcg.problem(6, 5),
            1 => lcg.crowded_problem(5, 4),
            _ => {
                let mut problem = lcg.problem(6, 5);
                (problem.w, problem.l) = (problem.w + 5, problem.l + 9);
                problem
            }
        };
        let problem = if number % 2 == 0 {
            lcg.locked(problem)
        } else {
            problem
        };
        let Some(given) = lcg.clear_layout(&problem) else {
            continue;
        };
        let mut expected = given.clone();
        let (slid, passes) = problem.compact(&mut expected);
        let job = job::read(problem.text().as_bytes()).expect("the oracle writes right jobs");
        let mut found = placements(&given);
        let outcome = compact::compact(&job, &mut found);
        assert_eq!(found, placements(&expected), "{}", problem.text());
        assert_eq!(outcome, Compacted { slid, passes });

        // What the text says of the answer.
        let corners = |layout: &[Place]| -> i32 {
            let sums = layout.iter().map(|place| place.corner.0 + place.corner.1);
            sums.sum()
        };
        assert_eq!(corners(&given) - corners(&expected), slid as i32);
        assert!(right_end(&problem, &expected) <= right_end(&problem, &given));
        for (panel, (before, after)) in given.iter().zip(&expected).enumerate() {
            let (was, is) = (before.corner, after.corner);
            assert!(is.0 <= was.0 && is.1 <= was.1 && before.turn == after.turn);
            assert!(problem.fits(&expected, panel, *after));
            if problem.panels[panel].locked {
                assert_eq!(before, after);
                continue;
            }
            for corner in [(is.0 - 1, is.1), (is.0, is.1 - 1)] {
                let turn = after.turn;
                assert!(!problem.fits(&expected, panel, Place { turn, corner }));
            }
        }
        let mut again = found.clone();
        let nothing = Compacted { slid: 0, passes: 0 };
        assert_eq!(compact::compact(&job, &mut again), nothing);
        assert_eq!(again, found);

        let some_locked = problem.panels.iter().any(|panel| panel.locked);
        slid_some += i32::from(slid > 0);
        more_passes += i32::from(passes > 1);
        longer += i32::from(problem.used_length(&expected) > problem.used_length(&given));
        with_locks += i32::from(slid > 0 && some_locked);
    }
    let seen = [slid_some, more_passes, longer, with_locks];
    assert!(seen.iter().all(|&count| count > 20), "{seen:?}");
}
