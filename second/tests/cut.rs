//! The cut list of small layouts, line by line, and of random ones beside the definition over pixels.

mod oracle;

use std::collections::HashSet;

use oracle::Lcg;
use second::cut::{self, CutLine, Step};
use second::job::{self, Job};
use second::layout::Placement;
use second::shape::Turn;

/// A job of pieces of marks, the bottom row first, on a sheet of so many rows and columns.
fn job(rows: usize, columns: usize, pieces: &[&[&str]]) -> Job {
    let mut text = format!("job,1,{rows},{columns},{}\n", pieces.len());
    for (number, marks) in pieces.iter().enumerate() {
        text += &format!("piece,{number},{},{},15\n", marks[0].len(), marks.len());
        text.extend(marks.iter().map(|row| format!("row,{row}\n")));
    }
    job::read(text.as_bytes()).expect("the job is right")
}

/// Placements by degrees and corner.
fn layout(places: &[[usize; 3]]) -> Vec<Placement> {
    let place = |&[degrees, x, y]: &[usize; 3]| Placement {
        turn: Turn::ALL[degrees / 90],
        x,
        y,
    };
    places.iter().map(place).collect()
}

/// The lines of a layout: horizontal ones as (y, first x, last x), vertical ones as (x, first y, last y).
fn lines(job: &Job, places: &[[usize; 3]]) -> [Vec<(usize, usize, usize)>; 2] {
    let lines = cut::lines(job, &layout(places));
    [false, true].map(|vertical| {
        let chosen = lines.iter().filter(|line| line.vertical == vertical);
        chosen
            .map(|line| (line.line, line.first, line.last))
            .collect()
    })
}

const SQUARE: &[&str] = &["##", "##"];
const RING: &[&str] = &["###", "#.#", "###"];
const WIDE_RING: &[&str] = &["######", "#....#", "#....#", "#....#", "#....#", "######"];
const DISC: &[&str] = &[".##.", "####", "####", ".##."];
const PIXEL: &[&str] = &["#"];

#[test]
fn two_squares_side_by_side() {
    let job = job(2, 4, &[SQUARE, SQUARE]);
    let places = [[0, 0, 0], [0, 2, 0]];
    let [horizontal, vertical] = lines(&job, &places);
    assert_eq!(horizontal, [(0, 0, 4), (2, 0, 4)]);
    assert_eq!(vertical, [(0, 0, 2), (2, 0, 2), (4, 0, 2)]);
    assert_eq!(cut::sides(&job, &layout(&places)).len(), 14);
}

#[test]
fn a_pixel_alone() {
    let smallest = job(1, 1, &[PIXEL]);
    let [horizontal, vertical] = lines(&smallest, &[[0, 0, 0]]);
    assert_eq!(horizontal, [(0, 0, 1), (1, 0, 1)]);
    assert_eq!(vertical, [(0, 0, 1), (1, 0, 1)]);
    let amid = job(3, 5, &[PIXEL]);
    let [horizontal, vertical] = lines(&amid, &[[0, 3, 1]]);
    assert_eq!(horizontal, [(1, 3, 4), (2, 3, 4)]);
    assert_eq!(vertical, [(3, 1, 2), (4, 1, 2)]);
}

#[test]
fn a_piece_at_the_right_and_the_top_edge() {
    let job = job(3, 5, &[SQUARE]);
    let [horizontal, vertical] = lines(&job, &[[0, 3, 1]]);
    assert_eq!(horizontal, [(1, 3, 5), (3, 3, 5)]);
    assert_eq!(vertical, [(3, 1, 3), (5, 1, 3)]);
}

#[test]
fn a_ring_with_a_free_hole_beside_a_square() {
    let job = job(3, 5, &[RING, SQUARE]);
    let places = [[0, 0, 0], [0, 3, 0]];
    let [horizontal, vertical] = lines(&job, &places);
    let expected = [(0, 0, 5), (1, 1, 2), (2, 1, 2), (2, 3, 5), (3, 0, 3)];
    assert_eq!(horizontal, expected);
    let expected = [(0, 0, 3), (1, 1, 2), (2, 1, 2), (3, 0, 3), (5, 0, 2)];
    assert_eq!(vertical, expected);
    // 12 round the ring, 4 round its hole, 8 round the square, 2 of them the ring's as well.
    assert_eq!(cut::sides(&job, &layout(&places)).len(), 22);
}

#[test]
fn a_disc_in_the_hole_of_a_ring() {
    let job = job(7, 8, &[WIDE_RING, DISC]);
    let [horizontal, vertical] = lines(&job, &[[0, 1, 0], [0, 2, 1]]);
    // The disc touches each side of the hole along its middle half, and leaves the four corners free.
    let low = [(0, 1, 7), (1, 2, 6), (2, 2, 3), (2, 5, 6)];
    let high = [(4, 2, 3), (4, 5, 6), (5, 2, 6), (6, 1, 7)];
    assert_eq!(horizontal, [low, high].concat());
    let left = [(1, 0, 6), (2, 1, 5), (3, 1, 2), (3, 4, 5)];
    let right = [(5, 1, 2), (5, 4, 5), (6, 1, 5), (7, 0, 6)];
    assert_eq!(vertical, [left, right].concat());
}

#[test]
fn a_pixel_fills_the_hole_of_a_ring() {
    let job = job(4, 5, &[RING, PIXEL]);
    let [horizontal, vertical] = lines(&job, &[[0, 1, 1], [0, 2, 2]]);
    assert_eq!(horizontal, [(1, 1, 4), (2, 2, 3), (3, 2, 3), (4, 1, 4)]);
    assert_eq!(vertical, [(1, 1, 4), (2, 2, 3), (3, 2, 3), (4, 1, 4)]);
}

#[test]
fn a_piece_of_separate_parts() {
    let job = job(2, 3, &[&["#..", "..#"]]);
    let [horizontal, vertical] = lines(&job, &[[0, 0, 0]]);
    assert_eq!(horizontal, [(0, 0, 1), (1, 0, 1), (1, 2, 3), (2, 2, 3)]);
    assert_eq!(vertical, [(0, 0, 1), (1, 0, 1), (2, 1, 2), (3, 1, 2)]);
}

#[test]
fn two_squares_that_touch_along_half_a_side() {
    let job = job(3, 4, &[SQUARE, SQUARE]);
    let [horizontal, vertical] = lines(&job, &[[0, 0, 0], [0, 2, 1]]);
    assert_eq!(horizontal, [(0, 0, 2), (1, 2, 4), (2, 0, 2), (3, 2, 4)]);
    assert_eq!(vertical, [(0, 0, 2), (2, 0, 3), (4, 1, 3)]);
}

#[test]
fn lines_pass_a_point_where_four_pieces_meet() {
    let wide: &[&str] = &["###", "###"];
    let job = job(4, 5, &[wide, SQUARE, wide, SQUARE]);
    let [horizontal, vertical] = lines(&job, &[[0, 0, 0], [0, 3, 0], [0, 0, 2], [0, 3, 2]]);
    assert_eq!(horizontal, [(0, 0, 5), (2, 0, 5), (4, 0, 5)]);
    assert_eq!(vertical, [(0, 0, 4), (3, 0, 4), (5, 0, 4)]);
}

#[test]
fn steps_go_to_the_smaller_end_and_along_the_line() {
    let lines = [
        CutLine {
            vertical: false,
            line: 3,
            first: 1,
            last: 4,
        },
        CutLine {
            vertical: true,
            line: 5,
            first: 0,
            last: 2,
        },
    ];
    let steps: Vec<Step> = (0..6).map(|k| cut::step(&lines, 96, k)).collect();
    let expected = [
        Step::Lift(1.5, 4.5),
        Step::Cut(6.0, 4.5),
        Step::Lift(7.5, 0.0),
        Step::Cut(7.5, 3.0),
        Step::Done,
        Step::Done,
    ];
    assert_eq!(steps, expected);
    assert_eq!(cut::step(&lines, 96, u64::MAX), Step::Done);
    assert_eq!(cut::step(&lines, 1, 0), Step::Lift(0.015625, 0.046875));
}

/// Every side of a random layout, found pixel by pixel of the sheet, lies on just one line, the lines are in order, and no two could be
/// joined.
#[test]
fn lines_cover_every_side_once() {
    let mut lcg = Lcg(21);
    for _ in 0..300 {
        let problem = lcg.problem(4, 5);
        let places = lcg.layout(&problem);
        let holder = |x: i32, y: i32| -> HashSet<usize> {
            let on = |k: &usize| {
                let (corner_x, corner_y) = places[*k].corner;
                let pixels = oracle::turned(&problem.panels[*k], places[*k].turn);
                pixels.contains(&(x - corner_x, y - corner_y))
            };
            (0..places.len()).filter(on).collect()
        };
        let mut sides = HashSet::new();
        for y in 0..=problem.w {
            for x in 0..=problem.l {
                if holder(x, y) != holder(x, y - 1) {
                    sides.insert((false, y as usize, x as usize));
                }
                if holder(x, y) != holder(x - 1, y) {
                    sides.insert((true, x as usize, y as usize));
                }
            }
        }
        let read = job::read(problem.text().as_bytes()).expect("the oracle writes right jobs");
        let place = |place: &oracle::Place| {
            [
                90 * place.turn as usize,
                place.corner.0 as usize,
                place.corner.1 as usize,
            ]
        };
        let places: Vec<[usize; 3]> = places.iter().map(place).collect();
        let lines = cut::lines(&read, &layout(&places));
        let units = lines
            .iter()
            .flat_map(|line| (line.first..line.last).map(|at| (line.vertical, line.line, at)));
        let units: Vec<_> = units.collect();
        assert_eq!(units.len(), sides.len());
        assert_eq!(units.into_iter().collect::<HashSet<_>>(), sides);
        for pair in lines.windows(2) {
            let [one, next] = [pair[0], pair[1]];
            let [on, next_on] = [one, next].map(|line| (line.vertical, line.line));
            assert!(on < next_on || on == next_on && one.last < next.first);
        }
    }
}
