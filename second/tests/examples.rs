//! The marked examples P1 to P12 and the two examples of the program, those of them that a gap or a lock changes, and the largest depth and
//! penalty.

use second::job::{Job, Piece};
use second::layout::{self, Placement};
use second::nofit::{BitShape, NoFit};
use second::penalty::PenaltyMaps;
use second::search::{Descent, End, LinePlace, Search};
use second::shape::{Direction, Shape, Strip, Turn};

/// A shape of rows of marks, the bottom row first.
fn shape(rows: &[&str]) -> Shape {
    let pixels = rows.concat().bytes().map(|mark| mark == b'#').collect();
    Shape::new(rows[0].len(), pixels)
}

/// The full 2 x 2 square.
fn a() -> Shape {
    shape(&["##", "##"])
}

/// The pixels (0,0), (1,0), (0,1).
fn b() -> Shape {
    shape(&["##", "#."])
}

/// The 3 x 3 square without its middle.
fn d() -> Shape {
    shape(&["###", "#.#", "###"])
}

/// One pixel.
fn e() -> Shape {
    shape(&["#"])
}

/// A placement by degrees and corner.
fn at(degrees: usize, x: usize, y: usize) -> Placement {
    Placement {
        turn: Turn::ALL[degrees / 90],
        x,
        y,
    }
}

/// A job with all turns sums equal.
fn job(rows: usize, columns: usize, turn_sum: usize, shapes: Vec<Shape>) -> Job {
    let pieces = shapes
        .into_iter()
        .map(|shape| Piece::new(shape, turn_sum, false))
        .collect();
    Job {
        rows,
        columns,
        gap: 0,
        pieces,
    }
}

/// The no-fit region of two shapes that are to keep a gap.
fn no_fit(fixed: &Shape, moving: &Shape, gap: usize) -> NoFit {
    let opposite = moving.turned(Turn::ALL[2]);
    NoFit::new(
        &BitShape::new(&fixed.widened(gap)),
        &BitShape::new(&opposite),
    )
}

/// The no-fit row of A and A at a row offset, as column offsets.
fn no_fit_row_of_a(row_offset: usize, gap: usize) -> Vec<(isize, usize)> {
    let region = no_fit(&a(), &a(), gap);
    // Without a gap the box of offsets runs from -1 to 1; the rows beyond it are empty.
    let row = row_offset + gap + 1;
    if row >= region.rows() {
        return Vec::new();
    }
    region
        .row_runs(row)
        .map(|(first, count)| (first as isize - 1 - gap as isize, count))
        .collect()
}

/// Both depths and the penalty of two shapes in turn 0 without a gap; the offset is not negative.
fn depths_and_penalty(first: Shape, second: Shape, dx: usize, dy: usize) -> (usize, usize, u8) {
    depths_with_gap(first, second, dx, dy, 0)
}

/// The same with a gap.
fn depths_with_gap(
    first: Shape,
    second: Shape,
    dx: usize,
    dy: usize,
    gap: usize,
) -> (usize, usize, u8) {
    let region = no_fit(&first, &second, gap);
    let cell = (
        dx + gap + second.columns() - 1,
        dy + gap + second.rows() - 1,
    );
    let horizontal = region.depth(Direction::Horizontal, cell.0, cell.1);
    let vertical = region.depth(Direction::Vertical, cell.0, cell.1);
    let mut job = job(9, 9, 1, vec![first, second]);
    job.gap = gap;
    let maps = PenaltyMaps::new(&job);
    (
        horizontal,
        vertical,
        maps.penalty(0, at(0, 0, 0), 1, at(0, dx, dy)),
    )
}

#[test]
fn used_length_begins_at_the_first_piece() {
    let bars = vec![a(), shape(&["####"]), shape(&["#", "#", "#"])];
    let job = job(4, 9, 15, bars);
    let free_on_the_left = [at(0, 4, 0), at(90, 6, 0), at(270, 2, 2)];
    assert_eq!(layout::used_length(&job, &free_on_the_left), 5);
    let at_the_edge = free_on_the_left.map(|place| Placement {
        x: place.x - 2,
        ..place
    });
    assert_eq!(layout::used_length(&job, &at_the_edge), 5);
}

#[test]
fn p1_row_strips() {
    let strip = |y, first, count| Strip { y, first, count };
    let expected = [
        strip(0, 0, 3),
        strip(1, 0, 1),
        strip(1, 2, 1),
        strip(2, 0, 3),
    ];
    assert_eq!(d().row_strips(), expected);
}

#[test]
fn p2_turn_by_90() {
    assert_eq!(b().turned(Turn::ALL[1]), shape(&["##", ".#"]));
}

#[test]
fn p3_no_fit_row_at_1() {
    assert_eq!(no_fit_row_of_a(1, 0), [(-1, 3)]);
    assert_eq!(no_fit_row_of_a(1, 1), [(-2, 5)]);
}

#[test]
fn p4_no_fit_row_at_2() {
    assert_eq!(no_fit_row_of_a(2, 0), []);
    assert_eq!(no_fit_row_of_a(2, 1), [(-2, 5)]);
    assert_eq!(no_fit_row_of_a(3, 1), []);
}

#[test]
fn p5_depths_of_half_overlap() {
    assert_eq!(depths_and_penalty(a(), a(), 1, 0), (1, 2, 1));
    assert_eq!(depths_with_gap(a(), a(), 1, 0, 1), (2, 3, 2));
}

#[test]
fn p6_penalty_of_full_overlap() {
    assert_eq!(depths_and_penalty(a(), a(), 0, 0).2, 2);
}

#[test]
fn p7_pixel_in_a_hole() {
    assert_eq!(depths_and_penalty(d(), e(), 1, 1), (0, 0, 0));
    // With a gap there is no room in the hole: the pixel has to leave the ring and keep one free column or row.
    assert_eq!(depths_with_gap(d(), e(), 1, 1, 1), (3, 3, 3));
}

#[test]
fn p8_pixel_beside_a_hole() {
    assert_eq!(depths_and_penalty(d(), e(), 1, 0), (2, 1, 1));
}

#[test]
fn p9_boxes_meet_without_overlap() {
    let maps = PenaltyMaps::new(&job(9, 9, 5, vec![b(), b()]));
    assert_eq!(maps.penalty(0, at(0, 0, 0), 1, at(180, 1, 0)), 0);
    assert_eq!(maps.penalty(1, at(180, 1, 0), 0, at(0, 0, 0)), 0);
    assert_eq!(maps.penalty(0, at(0, 0, 0), 1, at(180, 0, 0)), 1);
    let turned = || b().turned(Turn::ALL[2]);
    assert_eq!(depths_with_gap(b(), turned(), 1, 0, 0), (0, 0, 0));
    assert_eq!(depths_with_gap(b(), turned(), 1, 0, 1), (2, 2, 2));
}

/// A full rectangle.
fn full(columns: usize, rows: usize) -> Shape {
    Shape::new(columns, vec![true; columns * rows])
}

#[test]
fn largest_depth() {
    let depths = |gap| depths_with_gap(full(255, 128), full(255, 128), 0, 0, gap);
    assert_eq!(depths(0), (255, 128, 128));
    assert_eq!(depths(8), (263, 136, 136));
}

#[test]
fn largest_penalty() {
    // The upright piece has its middle column and row where the lying one has its own.
    let mut job = job(256, 256, 1, vec![full(255, 128), full(128, 255)]);
    job.gap = 8;
    let maps = PenaltyMaps::new(&job);
    let penalty = |x, y| maps.penalty(0, at(0, 0, y), 1, at(0, x, 0));
    assert_eq!(penalty(63, 63), 199);
    assert_eq!(penalty(64, 64), 199);
    assert_eq!(penalty(62, 63), 198);
    assert_eq!(penalty(64, 65), 198);
    // No two boxes whose areas fit a job have a larger one: half the columns of both, or half the rows, and the gap.
    let sides = || (1..=255).flat_map(|columns| (1..=255).map(move |rows| (columns, rows)));
    let mut largest = 0;
    for (columns, rows) in sides().filter(|(columns, rows)| columns * rows <= 65_536) {
        // The columns of the other box decide how many rows it may have.
        for other_columns in 1..=255 {
            let room = (65_536 - columns * rows) / other_columns;
            let other_rows = room.min(255);
            if other_rows > 0 {
                let half = (columns + other_columns).min(rows + other_rows) / 2;
                largest = largest.max(half + 8);
            }
        }
    }
    assert_eq!(largest, 199);
}

#[test]
fn p10_line_search() {
    let job = job(2, 4, 1, vec![a(), a()]);
    let mut search = Search::new(&job, vec![at(0, 1, 0), at(0, 0, 0)], &[3]);
    let found = search.line_search(1, Turn::ALL[0], Direction::Horizontal, 0);
    assert_eq!(
        found,
        Some(LinePlace {
            sum: 3,
            coordinate: 0
        })
    );
}

#[test]
fn p11_descent_ends_clear() {
    let job = job(2, 4, 1, vec![a(), a()]);
    let mut search = Search::new(&job, vec![at(0, 0, 0); 2], &[1]);
    let expected = Descent {
        end: End::Clear,
        sum: 0,
        trials: 1,
        moves: 1,
    };
    assert_eq!(search.descent(5), expected);
    assert_eq!(search.layout(), [at(0, 2, 0), at(0, 0, 0)]);
}

#[test]
fn p12_descent_ends_settled_or_spent() {
    let job = job(2, 3, 1, vec![a(), a()]);
    let settled = Descent {
        end: End::Settled,
        sum: 1,
        trials: 5,
        moves: 1,
    };
    assert_eq!(
        Search::new(&job, vec![at(0, 0, 0); 2], &[1]).descent(5),
        settled
    );
    let spent = Descent {
        end: End::Spent,
        sum: 1,
        trials: 4,
        moves: 1,
    };
    assert_eq!(
        Search::new(&job, vec![at(0, 0, 0); 2], &[1]).descent(4),
        spent
    );
}

/// The pieces of a job text of two full 2 x 2 panels.
const SQUARES: &str = "piece,0,2,2,1\nrow,##\nrow,##\npiece,1,2,2,1\nrow,##\nrow,##\n";

/// The job text of two full 2 x 2 panels on a sheet of 2 rows.
fn two_squares(columns: usize) -> String {
    format!("job,1,2,{columns},2\n{SQUARES}")
}

#[test]
fn program_example_clear() {
    let expected = "layout,1,2,4,2\nat,0,0,0,0\nat,1,0,2,0\nend,clear,0,0,0,4\n";
    assert_eq!(second::run(two_squares(4).as_bytes()), expected);
}

#[test]
fn program_example_open() {
    let expected = "layout,1,2,3,2\nat,0,0,0,0\nat,1,0,1,0\nend,open,1,80,0,3\n";
    assert_eq!(second::run(two_squares(3).as_bytes()), expected);
}

#[test]
fn program_examples_with_a_gap() {
    let run = |columns, gap| {
        let text = format!("job,2,2,{columns},2,{gap}\n{SQUARES}");
        second::run(text.as_bytes())
    };
    let without = second::run(two_squares(4).as_bytes());
    assert_eq!(run(4, 0), without);
    let open = "layout,1,2,4,2\nat,0,0,0,0\nat,1,0,2,0\nend,open,1,80,0,4\n";
    assert_eq!(run(4, 1), open);
    let clear = "layout,1,2,5,2\nat,0,0,0,0\nat,1,0,3,0\nend,clear,0,3,1,5\n";
    assert_eq!(run(5, 1), clear);
}

/// The job text of such panels on a sheet of 2 rows, without a gap, with the lock of each.
fn locked_squares(columns: usize, locks: &[u8]) -> String {
    let square =
        |(number, lock): (usize, &u8)| format!("piece,{number},2,2,1,{lock}\nrow,##\nrow,##\n");
    let squares: String = locks.iter().enumerate().map(square).collect();
    format!("job,3,2,{columns},{},0\n{squares}", locks.len())
}

#[test]
fn program_examples_with_locks() {
    let run = |columns, locks: &[u8]| second::run(locked_squares(columns, locks).as_bytes());
    for columns in [3, 4] {
        let without = second::run(two_squares(columns).as_bytes());
        assert_eq!(run(columns, &[0, 0]), without);
    }
    // Both squares end where the start of all pieces has them. The second one, free, is stacked alone, lies on the locked first one and moves;
    // a free square has two trials a round.
    for (columns, locks, end) in [
        (4, [0, 1], "clear,0,0,0,4"),
        (4, [1, 0], "clear,0,1,1,4"),
        (4, [1, 1], "clear,0,0,0,4"),
        (3, [0, 1], "open,1,40,0,3"),
        (3, [1, 0], "open,1,41,1,3"),
        (3, [1, 1], "open,1,0,0,3"),
    ] {
        let right = columns - 2;
        let layout = format!("layout,1,2,{columns},2\nat,0,0,0,0\nat,1,0,{right},0\n");
        assert_eq!(run(columns, &locks), format!("{layout}end,{end}\n"));
    }
}

#[test]
fn descents_with_locks() {
    let mut job = job(2, 9, 1, vec![a(), a(), a()]);
    let mut descent = |locks: [bool; 3], columns: [usize; 3], budget| {
        for (piece, locked) in job.pieces.iter_mut().zip(locks) {
            piece.locked = locked;
        }
        let mut search = Search::new(&job, columns.map(|x| at(0, x, 0)).to_vec(), &[1; 3]);
        let Descent {
            end, trials, moves, ..
        } = search.descent(budget);
        let columns: Vec<usize> = search.layout().iter().map(|place| place.x).collect();
        (end, trials, moves, columns)
    };
    let given = [0, 1, 4];
    let free = [false; 3];
    assert_eq!(descent(free, given, 9), (End::Clear, 1, 1, vec![6, 1, 4]));
    let first = [true, false, false];
    assert_eq!(descent(first, given, 9), (End::Clear, 1, 1, vec![0, 2, 4]));
    let both = [true, true, false];
    let stays = given.to_vec();
    assert_eq!(descent(both, given, 9), (End::Settled, 2, 0, stays.clone()));
    for budget in [0, 9] {
        let settled = (End::Settled, 0, 0, stays.clone());
        assert_eq!(descent([true; 3], given, budget), settled);
    }
    let clear = (End::Clear, 0, 0, vec![0, 2, 4]);
    assert_eq!(descent([true; 3], [0, 2, 4], 0), clear);
}
