//! The calls over lent buffers: the shop's examples, the order of the causes, and random jobs compared with the definitions over pixel sets.

mod oracle;

use oracle::{Lcg, Place, Problem, STEPS};
use second::calls::{self, Cause, Counts, Lent, Line, Move, Refusal, Stretch, Weighted, RECORD};

/// A job in buffers of its own.
struct Buffers {
    numbers: [usize; 4],
    table: Vec<[u8; 4]>,
    pixels: Vec<u8>,
}

impl Buffers {
    /// Reads a text; what lies beyond the job in the buffers is no part of it.
    fn read(text: &str) -> Buffers {
        let (mut table, mut pixels) = (vec![[9; 4]; 64], vec![9; 65_536]);
        let numbers = calls::read_job(text.as_bytes(), &mut table, &mut pixels);
        let numbers = numbers.expect("the text is that of a job");
        Buffers {
            numbers,
            table,
            pixels,
        }
    }

    fn lent(&self) -> Lent<'_> {
        let [rows, columns, count, gap] = self.numbers;
        Lent {
            rows,
            columns,
            count,
            gap,
            table: &self.table,
            pixels: &self.pixels,
        }
    }
}

/// A job of pieces that are given by their rows, the bottom row first, all in every turn.
fn job(rows: usize, columns: usize, pieces: &[&[&str]]) -> Buffers {
    job_with_gap(rows, columns, 0, pieces)
}

/// The same with a gap.
fn job_with_gap(rows: usize, columns: usize, gap: usize, pieces: &[&[&str]]) -> Buffers {
    let mut text = format!("job,2,{rows},{columns},{},{gap}\n", pieces.len());
    for (number, marks) in pieces.iter().enumerate() {
        text += &format!("piece,{number},{},{},15\n", marks[0].len(), marks.len());
        marks.iter().for_each(|row| text += &format!("row,{row}\n"));
    }
    Buffers::read(&text)
}

const A: &[&str] = &["##", "##"];
const B: &[&str] = &["##", "#."];
const D: &[&str] = &["###", "#.#", "###"];
const E: &[&str] = &["#"];

/// The row strips of the first piece of a job in a turn.
fn strips(job: &Buffers, turn: u16) -> Vec<[u8; 3]> {
    let mut turns = vec![0; job.numbers[2]];
    turns[0] = turn;
    let (mut rows, mut columns) = (([[0; 3]; 99], [0; 65]), ([[0; 3]; 99], [0; 65]));
    let stores = [
        (&mut rows.0[..], &mut rows.1[..]),
        (&mut columns.0[..], &mut columns.1[..]),
    ];
    calls::strips(&job.lent(), &turns, stores).expect("turns and buffers are right");
    rows.0[..rows.1[1] as usize].to_vec()
}

#[test]
fn strips_turns_and_rebuilding() {
    let ring = strips(&job(9, 9, &[D]), 0);
    assert_eq!(ring, [[0, 0, 3], [1, 0, 1], [1, 2, 1], [2, 0, 3]]);
    assert_eq!(strips(&job(9, 9, &[B]), 90), [[0, 0, 2], [1, 1, 1]]);
    let mut pixels = [7; 10];
    // The ring is its own transpose, so the same strips serve both directions.
    for vertical in [false, true] {
        assert_eq!(calls::rebuild(3, 3, vertical, &ring, &mut pixels), Ok(()));
        assert_eq!(pixels, [1, 1, 1, 1, 0, 1, 1, 1, 1, 7]);
    }
    let mut pixels = [7; 4];
    assert_eq!(
        calls::rebuild(2, 2, true, &[[0, 0, 2], [1, 0, 1]], &mut pixels),
        Ok(())
    );
    assert_eq!(pixels, [1, 1, 1, 0]);
}

#[test]
fn no_fit_rows_of_squares() {
    let job = job(9, 9, &[A, A]);
    let strips = strips(&job, 0);
    let square = |piece| Stretch {
        piece,
        turn: 0,
        strips: &strips,
    };
    let mut runs = [[0; 2]; 4];
    let mut count = |offset| {
        calls::no_fit_line(
            &job.lent(),
            [square(0), square(1)],
            false,
            offset,
            &mut runs,
        )
    };
    assert_eq!(count(2), Ok(0));
    assert_eq!(count(i32::MIN), Ok(0));
    assert_eq!(count(1), Ok(1));
    assert_eq!(runs[0], [-1, 3]);
}

#[test]
fn no_fit_lines_of_squares_with_a_gap() {
    let job = job_with_gap(9, 9, 1, &[A, A]);
    let strips = strips(&job, 0);
    let square = |piece| Stretch {
        piece,
        turn: 0,
        strips: &strips,
    };
    for vertical in [false, true] {
        for (offset, expected) in [(-3, 0), (-2, 1), (1, 1), (2, 1), (3, 0), (i32::MAX, 0)] {
            let mut runs = [[0; 2]];
            let pair = [square(0), square(1)];
            let count = calls::no_fit_line(&job.lent(), pair, vertical, offset, &mut runs);
            assert_eq!(count, Ok(expected));
            assert!(expected == 0 || runs[0] == [-2, 5]);
        }
    }
}

#[test]
fn depths_and_penalties_of_the_shop() {
    let depths = |pieces: &[&[&str]], layout: [[u16; 3]; 2]| {
        let job = job(9, 9, pieces);
        let depth = |vertical| calls::depth(&job.lent(), &layout, 0, 1, vertical);
        let penalty = calls::penalty(&job.lent(), &layout, 1, 0);
        [depth(false), depth(true), penalty].map(|number| number.expect("the layout is right"))
    };
    assert_eq!(depths(&[A, A], [[0, 3, 3], [0, 4, 3]]), [1, 2, 1]);
    assert_eq!(depths(&[A, A], [[0, 3, 3], [0, 3, 3]]), [2, 2, 2]);
    assert_eq!(depths(&[D, E], [[0, 3, 3], [0, 4, 4]]), [0, 0, 0]);
    assert_eq!(depths(&[D, E], [[0, 3, 3], [0, 4, 3]]), [2, 1, 1]);
    assert_eq!(depths(&[B, B], [[0, 3, 3], [180, 4, 3]])[2], 0);
}

#[test]
fn conflicts_of_the_shop_with_a_gap() {
    let measured = |gap, pieces: &[&[&str]], layout: [[u16; 3]; 2]| {
        let job = job_with_gap(9, 9, gap, pieces);
        let depth = |vertical| calls::depth(&job.lent(), &layout, 0, 1, vertical);
        let penalty = calls::penalty(&job.lent(), &layout, 1, 0);
        let depths = [depth(false), depth(true), penalty];
        let conflict = calls::shares_pixel(&job.lent(), &layout, 0, 1);
        assert_eq!(
            calls::check(&job.lent(), &layout).is_err(),
            conflict == Ok(true)
        );
        depths.map(|number| number.expect("the layout is right"))
    };
    assert_eq!(measured(1, &[A, A], [[0, 3, 3], [0, 4, 3]]), [2, 3, 2]);
    assert_eq!(measured(1, &[B, B], [[0, 3, 3], [180, 4, 3]]), [2, 2, 2]);
    // A single pixel in the ring's hole.
    assert_eq!(measured(0, &[D, E], [[0, 3, 3], [0, 4, 4]]), [0, 0, 0]);
    assert_eq!(measured(1, &[D, E], [[0, 3, 3], [0, 4, 4]]), [3, 3, 3]);
    // Two pixels that touch at their corners, and such that are a knight's move apart: both columns and rows count.
    assert_eq!(measured(1, &[E, E], [[0, 3, 3], [0, 4, 4]]), [1, 1, 1]);
    assert_eq!(measured(1, &[E, E], [[0, 3, 3], [0, 4, 5]]), [0, 0, 0]);
    assert_eq!(measured(1, &[E, E], [[0, 3, 3], [0, 5, 4]]), [0, 0, 0]);
    // The sheet's edge is no piece.
    assert_eq!(measured(8, &[E, E], [[0, 0, 0], [0, 8, 8]]), [1, 1, 1]);
    let alone = job_with_gap(1, 1, 8, &[E]);
    assert_eq!(calls::check(&alone.lent(), &[[0; 3]]), Ok(()));
}

#[test]
fn gaps_that_no_reading_gives() {
    let job = job(9, 9, &[E, E]);
    for gap in [9, 10, 255, 256, 1 << 16, 1 << 32, usize::MAX] {
        let mut lent = job.lent();
        lent.gap = gap;
        let refused = calls::check(&lent, &[]).map_err(|refusal| refusal.cause);
        assert_eq!(refused, Err(Cause::LentGap));
        assert_eq!(Cause::LentGap.number(), 8);
    }
}

#[test]
fn counts_are_of_pixels_alone() {
    let job = job_with_gap(3, 3, 8, &[E, E]);
    let (mut record, mut counts) = ([[0; 4]; RECORD], [0; 9]);
    for (piece, place) in [[0, 0, 0], [0, 1, 0]].into_iter().enumerate() {
        let sheet = Counts {
            record: &mut record,
            counts: &mut counts,
        };
        assert_eq!(calls::lay(&job.lent(), sheet, piece, place), Ok(()));
    }
    assert_eq!(counts, [1, 1, 0, 0, 0, 0, 0, 0, 0]);
}

#[test]
fn searches_of_the_shop() {
    let given = Weighted {
        layout: &[[0, 1, 0], [0, 1, 0]],
        weights: &[3],
    };
    let line = Line {
        piece: 1,
        turn: 0,
        vertical: false,
        held: 0,
    };
    let found = calls::line_search(&job(2, 4, &[A, A]).lent(), given, line);
    let found = found.expect("there is a place");
    assert_eq!((found.coordinate, found.sum), (0, 3));

    let text = |columns| {
        let square = "2,2,1\nrow,##\nrow,##\n";
        format!("job,1,2,{columns},2\npiece,0,{square}piece,1,{square}")
    };
    let descent = |columns, budget| {
        let mut layout = [[0; 3]; 2];
        let job = Buffers::read(&text(columns));
        let ended = calls::descent(&job.lent(), &mut layout, &[1], budget);
        let ended = ended.expect("the layout is right");
        (ended.end, ended.sum, ended.trials, ended.moves)
    };
    assert_eq!(descent(4, 5), (0, 0, 1, 1));
    assert_eq!(descent(3, 5), (1, 1, 5, 1));
    assert_eq!(descent(3, 4), (2, 1, 4, 1));
}

#[test]
fn the_first_cause_wins() {
    let job = job(4, 5, &[A, B, E]);
    let right = [[0, 0, 0], [90, 2, 0], [0, 4, 3]];
    let spoilt_turn = [[0, 9, 9], [90, 2, 0], [45, 4, 3]];
    let sum = |layout: &[[u16; 3]], weights: &[u32]| {
        calls::weighted_sum(&job.lent(), Weighted { layout, weights })
            .map_err(|refusal| refusal.cause)
    };
    assert!(sum(&right, &[1, 2, 3]).is_ok());
    assert_eq!(sum(&spoilt_turn[..2], &[0, 2, 3]), Err(Cause::LayoutLength));
    assert_eq!(sum(&spoilt_turn, &[0, 2]), Err(Cause::WeightsLength));
    assert_eq!(sum(&spoilt_turn, &[0, 2, 3]), Err(Cause::Weight));
    assert_eq!(sum(&spoilt_turn, &[1, 65_536, 3]), Err(Cause::Weight));
    assert_eq!(sum(&spoilt_turn, &[1, 2, 3]), Err(Cause::LayoutTurn));
    assert_eq!(
        sum(&[[0, 9, 9], right[1], right[2]], &[1, 2, 3]),
        Err(Cause::Outside)
    );

    let mut lent = job.lent();
    lent.count = usize::MAX;
    let refused = calls::plain_sum(&lent, &[]).map_err(|refusal| refusal.cause);
    assert_eq!(refused, Err(Cause::LentCount));
}

#[test]
fn the_first_cause_of_a_cut_list_wins() {
    let job = job(4, 5, &[A, B, E]);
    let right = [[0, 0, 0], [90, 2, 0], [0, 4, 3]];
    let shared = [[0, 0, 0], [90, 1, 1], [0, 4, 3]];
    let shared_outside = [[0, 0, 0], [90, 1, 1], [0, 5, 3]];
    let spoilt_turn = [[0, 9, 9], [90, 2, 0], [45, 4, 3]];
    let step = |layout: &[[u16; 3]], pitch| {
        calls::cut_step(&job.lent(), layout, pitch, 0).map_err(|refusal| refusal.cause)
    };
    assert!(step(&right, 1).is_ok() && step(&right, 4_096).is_ok());
    assert_eq!(step(&spoilt_turn[..2], 0), Err(Cause::LayoutLength));
    assert_eq!(step(&spoilt_turn, 0), Err(Cause::Pitch));
    assert_eq!(step(&shared, 4_097), Err(Cause::Pitch));
    assert_eq!(step(&spoilt_turn, 1), Err(Cause::LayoutTurn));
    assert_eq!(step(&shared_outside, 1), Err(Cause::Outside));
    assert_eq!(step(&shared, 1), Err(Cause::Conflict));

    let lines = |lent: &Lent, layout: &[[u16; 3]]| {
        // Room for one line, where there are more.
        let mut lines = [[7; 4]];
        let count = calls::cut_lines(lent, layout, &mut lines);
        assert_eq!(lines, [[7; 4]]);
        count.map_err(|refusal| refusal.cause)
    };
    assert_eq!(lines(&job.lent(), &right), Err(Cause::BufferShort));
    assert_eq!(lines(&job.lent(), &shared), Err(Cause::Conflict));
    assert_eq!(lines(&job.lent(), &shared_outside), Err(Cause::Outside));
    assert_eq!(lines(&job.lent(), &spoilt_turn), Err(Cause::LayoutTurn));
    assert_eq!(
        lines(&job.lent(), &spoilt_turn[..2]),
        Err(Cause::LayoutLength)
    );
    let mut lent = job.lent();
    lent.count = usize::MAX;
    assert_eq!(lines(&lent, &spoilt_turn[..2]), Err(Cause::LentCount));
}

#[test]
fn the_first_cause_of_a_compaction_wins() {
    let job = job(4, 5, &[A, B, E]);
    let compact = |lent: &Lent, given: &[[u16; 3]]| {
        let mut layout = given.to_vec();
        let outcome = calls::compact(lent, &mut layout);
        assert!(outcome.is_ok() || layout == given);
        outcome.map(|compacted| (layout, compacted.slid))
    };
    let right = [[0, 0, 0], [90, 2, 1], [0, 4, 3]];
    let pushed = [[0, 0, 0], [90, 2, 0], [0, 0, 2]];
    assert_eq!(compact(&job.lent(), &right), Ok((pushed.to_vec(), 6)));
    let shared = [[0, 0, 0], [90, 1, 1], [0, 4, 3]];
    let places = [0, 1];
    let cause = Cause::Conflict;
    assert_eq!(
        compact(&job.lent(), &shared),
        Err(Refusal { cause, places })
    );
    let cause = |lent: &Lent, given: &[[u16; 3]]| {
        let refusal = compact(lent, given).expect_err("a refusal");
        assert_eq!(refusal.places, [0, 0]);
        refusal.cause
    };
    let shared_outside = [[0, 0, 0], [90, 1, 1], [0, 5, 3]];
    let spoilt_turn = [[0, 9, 9], [90, 1, 1], [45, 4, 3]];
    assert_eq!(cause(&job.lent(), &shared_outside), Cause::Outside);
    assert_eq!(cause(&job.lent(), &spoilt_turn), Cause::LayoutTurn);
    assert_eq!(cause(&job.lent(), &spoilt_turn[..2]), Cause::LayoutLength);
    let mut lent = job.lent();
    lent.count = usize::MAX;
    assert_eq!(cause(&lent, &spoilt_turn[..2]), Cause::LentCount);
}

/// The sum and the length that a preview gives, or the cause by which it is refused.
fn preview(
    lent: &Lent,
    layout: &[[u16; 3]],
    weights: &[u32],
    piece: usize,
    [turn, x, y]: [u16; 3],
) -> Result<(u64, usize), Cause> {
    let given = Weighted { layout, weights };
    let to = Move { piece, turn, x, y };
    let figures = calls::preview(lent, given, to);
    figures
        .map(|figures| (figures.sum, figures.length))
        .map_err(|refusal| refusal.cause)
}

#[test]
fn previews_of_small_moves() {
    let job = job(4, 5, &[A, B, E]);
    let layout = [[0, 0, 0], [90, 2, 0], [0, 4, 3]];
    let preview = |piece, place| preview(&job.lent(), &layout, &[5, 2, 3], piece, place);
    assert_eq!(preview(0, [0, 0, 0]), Ok((0, 5)));
    // The square shares a column with B, and nothing lies in the first column.
    assert_eq!(preview(0, [0, 1, 0]), Ok((5, 4)));
    // The single pixel lies on the square, and nothing in the last column.
    assert_eq!(preview(2, [0, 0, 0]), Ok((2, 4)));
}

#[test]
fn a_preview_in_a_turn_that_the_piece_may_not_take() {
    // A strip in turns 0 and 180, and a single pixel in all four.
    let text = "job,1,4,5,2\npiece,0,2,1,5\nrow,##\npiece,1,1,1,15\nrow,#\n";
    let job = Buffers::read(text);
    let preview = |old, piece, place| {
        let layout = [[old, 0, 0], [0, 4, 3]];
        preview(&job.lent(), &layout, &[7], piece, place)
    };
    // The strip ends on the pixel; nothing lies left of it then.
    assert_eq!(preview(0, 0, [180, 3, 3]), Ok((7, 2)));
    assert_eq!(preview(0, 1, [90, 3, 0]), Ok((0, 4)));
    for turn in [90, 270, 360] {
        assert_eq!(preview(0, 0, [turn, 3, 0]), Err(Cause::Turn));
        assert_eq!(preview(turn, 0, [180, 3, 3]), Err(Cause::LayoutTurn));
    }
}

#[test]
fn the_first_cause_of_a_preview_wins() {
    let job = job(4, 5, &[A, B, E]);
    let right = [[0, 0, 0], [90, 2, 0], [0, 4, 3]];
    let far = [0, 9, 9];
    let weights = [5, 2, 3];
    let cause = |layout: &[[u16; 3]], weights: &[u32], piece, place| {
        preview(&job.lent(), layout, weights, piece, place).expect_err("a refusal")
    };
    let spoilt = [far, [45, 2, 0], right[2]];
    let wrong = [45, 9, 9];
    assert_eq!(cause(&spoilt[..2], &[0], 3, wrong), Cause::LayoutLength);
    assert_eq!(cause(&spoilt, &[0], 3, wrong), Cause::WeightsLength);
    assert_eq!(cause(&spoilt, &[0, 2, 3], 3, wrong), Cause::Weight);
    assert_eq!(cause(&spoilt, &weights, 3, wrong), Cause::NoPiece);
    assert_eq!(cause(&spoilt, &weights, 0, wrong), Cause::Turn);
    assert_eq!(cause(&spoilt, &weights, 0, far), Cause::LayoutTurn);
    // The old placement is asked too, although the figures do not depend on it.
    let old_outside = [far, right[1], right[2]];
    assert_eq!(cause(&old_outside, &weights, 0, far), Cause::Outside);
    assert_eq!(cause(&old_outside, &weights, 0, right[0]), Cause::Outside);
    assert_eq!(cause(&right, &weights, 0, far), Cause::NewOutside);
    // A job that is none comes before all of these.
    let mut lent = job.lent();
    lent.count = 0;
    let refused = preview(&lent, &spoilt[..2], &[0], 3, wrong);
    assert_eq!(refused, Err(Cause::LentCount));
}

#[test]
fn the_lowest_pair_is_named() {
    let job = job(4, 9, &[A, A, A, A]);
    let check = |layout| calls::check(&job.lent(), layout);
    let shared = |first, second| {
        let places = [first, second];
        let cause = Cause::Conflict;
        Err(Refusal { cause, places })
    };
    assert_eq!(check(&[[0, 0, 0], [0, 2, 0], [0, 4, 0], [0, 6, 0]]), Ok(()));
    assert_eq!(
        check(&[[0, 0, 0], [0, 3, 0], [0, 3, 0], [0, 1, 1]]),
        shared(0, 3)
    );
    assert_eq!(
        check(&[[0, 0, 0], [0, 3, 0], [0, 4, 1], [0, 4, 0]]),
        shared(1, 2)
    );
}

#[test]
fn refusals_of_a_layout_text() {
    let job = job(4, 9, &[B, E]);
    let read = |text: &str, length: usize| {
        let mut layout = vec![[7; 3]; length];
        let outcome = calls::read_layout(&job.lent(), text.as_bytes(), &mut layout);
        outcome
            .map(|()| layout)
            .map_err(|refusal| (refusal.cause.number(), refusal.places[0]))
    };
    let head = "layout,1,4,9,2\n";
    let text = |lines: &str| format!("{head}{lines}");
    let right = text("at,0,90,7,2\nat,1,0,0,3\n");
    assert_eq!(read(&right, 2), Ok(vec![[90, 7, 2], [0, 0, 3]]));
    for (text, number, line) in [
        (String::new(), 1, 1),
        ("layout,2,4,9,2\n".to_string(), 1, 1),
        ("layout,1,4,8,2\n".to_string(), 2, 1),
        (text("at,0,90,7,2"), 1, 2),
        (text("at,1,45,99,99\n"), 2, 2),
        (text("at,0,45,99,99\n"), 2, 2),
        (text("at,0,0,99999,0\n"), 10, 2),
        (text("at,0,90,7,2\n"), 1, 3),
        (right.clone() + "\n", 1, 4),
        (right.clone(), 7, 0),
    ] {
        assert_eq!(read(&text, 3), Err((number, line)), "{text:?}");
    }
}

#[test]
fn a_sheet_through_its_calls() {
    let job = job(3, 3, &[A, B]);
    let (mut record, mut counts) = ([[5; 4]; RECORD], [5; 9]);
    macro_rules! on {
        ($call:ident $(, $argument:expr)*) => {{
            let sheet = Counts { record: &mut record, counts: &mut counts };
            calls::$call(&job.lent(), sheet $(, $argument)*).map_err(|refusal| refusal.cause)
        }};
    }
    assert_eq!(on!(withdraw, 9), Err(Cause::Record));
    assert_eq!(on!(fresh), Ok(()));
    assert_eq!(on!(lay, 0, [0, 1, 1]), Ok(()));
    assert_eq!(on!(lay, 1, [90, 0, 0]), Ok(()));
    assert_eq!(counts, [1, 1, 0, 0, 2, 1, 0, 1, 1]);
    assert_eq!(record[..3], [[1, 0, 1, 1], [1, 90, 0, 0], [0; 4]]);
    assert_eq!(on!(lay, 2, [45, 9, 9]), Err(Cause::NoPiece));
    assert_eq!(on!(lay, 1, [45, 9, 9]), Err(Cause::Turn));
    assert_eq!(on!(lay, 1, [0, 9, 9]), Err(Cause::Laid));
    assert_eq!(on!(withdraw, 1), Ok(()));
    assert_eq!(on!(withdraw, 1), Err(Cause::NotLaid));
    assert_eq!(on!(lay, 1, [0, 2, 0]), Err(Cause::Outside));
    assert_eq!(counts, [0, 0, 0, 0, 1, 1, 0, 1, 1]);
    counts[8] = 2;
    assert_eq!(on!(lay, 0, [0, 0, 0]), Err(Cause::Counts));
    record[2] = [1, 0, 0, 0];
    assert_eq!(on!(withdraw, 7), Err(Cause::Record));
}

/// The same job with some pieces locked.
fn with_locks(mut job: Buffers, locks: &[u8]) -> Buffers {
    for (entry, &lock) in job.table.iter_mut().zip(locks) {
        entry[3] = lock;
    }
    job
}

#[test]
fn locks_of_a_text_and_of_a_lent_table() {
    let text =
        "job,3,4,9,3,2\npiece,0,2,1,1,1\nrow,##\npiece,1,1,1,3,0\nrow,#\npiece,2,1,1,5,1\nrow,#\n";
    let job = Buffers::read(text);
    assert_eq!(job.numbers, [4, 9, 3, 2]);
    assert_eq!(job.table[..3], [[2, 1, 1, 1], [1, 1, 3, 0], [1, 1, 5, 1]]);
    assert_eq!(job.table[3], [9; 4]);
    let older = Buffers::read("job,2,4,9,1,2\npiece,0,2,1,1\nrow,##\n");
    assert_eq!(older.table[0], [2, 1, 1, 0]);
    for lock in 0..=255 {
        let job = with_locks(self::job(4, 9, &[A, B]), &[0, lock]);
        let found = job.lent().job().map(|job| job.pieces[1].locked);
        match lock {
            0 | 1 => assert_eq!(found, Ok(lock == 1)),
            _ => assert_eq!(found, Err(Cause::LentLock.into())),
        }
    }
}

#[test]
fn setting_a_lock() {
    let set = |locks: &[u8], piece: usize, station: usize| {
        let job = with_locks(job(4, 9, &[A, B, E]), locks);
        calls::set_lock(&job.lent(), piece, station).map_err(|refusal| refusal.cause)
    };
    assert_eq!(set(&[0, 0, 1], 1, calls::CUTTER), Ok([2, 2, 15, 1]));
    assert_eq!(set(&[0, 0, 1], 2, calls::CUTTER), Ok([1, 1, 15, 1]));
    for piece in 0..3 {
        let refused = set(&[0, 0, 1], piece, calls::PLANNER);
        assert_eq!(refused, Err(Cause::NotTheCutter));
    }
    for station in [2, 3, 256, 257, usize::MAX] {
        assert_eq!(set(&[0, 0, 1], 1, station), Err(Cause::Station));
        assert_eq!(set(&[0, 0, 1], 3, station), Err(Cause::Station));
        assert_eq!(set(&[0, 0, 2], 3, station), Err(Cause::LentLock));
    }
    for station in [calls::PLANNER, calls::CUTTER] {
        assert_eq!(set(&[0, 0, 1], 3, station), Err(Cause::NoPiece));
        assert_eq!(set(&[0, 0, 1], usize::MAX, station), Err(Cause::NoPiece));
    }
}

#[test]
fn a_start_around_locked_pieces() {
    let start = |locks: &[u8], given: &[[u16; 3]]| {
        let job = with_locks(job(2, 9, &[A, A, &["#", "#"]]), locks);
        let mut layout = given.to_vec();
        let outcome = calls::start(&job.lent(), &mut layout);
        assert!(outcome.is_ok() || layout == given);
        outcome.map(|()| layout).map_err(|refusal| refusal.cause)
    };
    let junk = [45, 9_999, 9_999];
    let all = [[0, 0, 0], [0, 2, 0], [0, 4, 0]];
    assert_eq!(start(&[0, 0, 0], &[junk; 3]), Ok(all.to_vec()));
    let around = [[0, 0, 0], [0, 5, 0], [0, 2, 0]];
    assert_eq!(
        start(&[0, 1, 0], &[junk, [0, 5, 0], junk]),
        Ok(around.to_vec())
    );
    // The locked piece keeps its turn, and free ones may lie on it.
    let on_it = [[180, 1, 0], [0, 0, 0], [0, 2, 0]];
    assert_eq!(
        start(&[1, 0, 0], &[[180, 1, 0], junk, junk]),
        Ok(on_it.to_vec())
    );
    let given = [[90, 1, 0], [0, 1, 0], [90, 7, 1]];
    assert_eq!(start(&[1, 1, 1], &given), Ok(given.to_vec()));
    let far = [0, 8, 0];
    assert_eq!(
        start(&[0, 1, 0], &[junk, far, junk]),
        Err(Cause::LockedOutside)
    );
    assert_eq!(
        start(&[1, 0, 1], &[far, junk, junk]),
        Err(Cause::LockedTurn)
    );
    assert_eq!(start(&[1, 0, 1], &[far, junk]), Err(Cause::LayoutLength));
    assert_eq!(start(&[1, 0, 2], &[far, junk]), Err(Cause::LentLock));
}

#[test]
fn a_sheet_with_locked_pieces() {
    let job = with_locks(job(3, 3, &[A, B]), &[1, 0]);
    let (mut record, mut counts) = ([[0; 4]; RECORD], [0; 9]);
    macro_rules! on {
        ($call:ident $(, $argument:expr)*) => {{
            let sheet = Counts { record: &mut record, counts: &mut counts };
            calls::$call(&job.lent(), sheet $(, $argument)*).map_err(|refusal| refusal.cause)
        }};
    }
    assert_eq!(on!(withdraw, 0), Err(Cause::NotLaid));
    assert_eq!(on!(lay, 0, [0, 1, 1]), Ok(()));
    assert_eq!(on!(lay, 1, [90, 0, 0]), Ok(()));
    assert_eq!(on!(lay, 0, [0, 0, 0]), Err(Cause::Laid));
    assert_eq!(on!(withdraw, 0), Err(Cause::Locked));
    assert_eq!(on!(withdraw, 2), Err(Cause::NoPiece));
    assert_eq!(on!(withdraw, 1), Ok(()));
    assert_eq!(counts, [0, 0, 0, 0, 1, 1, 0, 1, 1]);
    assert_eq!(on!(withdraw, 1), Err(Cause::NotLaid));
    counts[0] = 1;
    assert_eq!(on!(withdraw, 0), Err(Cause::Counts));
}

#[test]
fn calls_that_no_lock_changes() {
    let free = job(4, 9, &[A, B, E]);
    let locked = with_locks(job(4, 9, &[A, B, E]), &[1, 1, 1]);
    let layout = [[0, 0, 0], [90, 1, 1], [0, 5, 3]];
    let given = || Weighted {
        layout: &layout,
        weights: &[1, 2, 3],
    };
    let line = Line {
        piece: 1,
        turn: 0,
        vertical: false,
        held: 1,
    };
    let to = Move {
        piece: 0,
        turn: 0,
        x: 3,
        y: 2,
    };
    let [one, other] = [&free, &locked].map(|job| {
        let lent = job.lent();
        (
            calls::line_search(&lent, given(), line),
            calls::preview(&lent, given(), to),
            calls::weighted_sum(&lent, given()),
            calls::used_length(&lent, &layout),
            calls::check(&lent, &layout),
        )
    });
    assert!(one.0.is_ok());
    assert_eq!(one, other);
}

/// The buffers of a layout.
fn entries(layout: &[Place]) -> Vec<[u16; 3]> {
    let entry = |place: &Place| [90 * place.turn, place.corner.0, place.corner.1];
    layout
        .iter()
        .map(|place| entry(place).map(|number| number as u16))
        .collect()
}

/// Compares every call about two pieces with the definitions.
fn check_pairs(problem: &Problem, layout: &[Place]) {
    let (job, given, g) = (Buffers::read(&problem.text()), entries(layout), problem.g);
    let mut lowest = Ok(());
    for (i, k) in problem.pairs() {
        let pixels = [i, k].map(|piece| oracle::turned(&problem.panels[piece], layout[piece].turn));
        let (from, to) = (layout[i].corner, layout[k].corner);
        let offset = (to.0 - from.0, to.1 - from.1);
        let expected =
            STEPS.map(|step| oracle::depth(g, &pixels[0], &pixels[1], offset, step) as usize);
        for (vertical, depth) in [false, true].into_iter().zip(expected) {
            assert_eq!(calls::depth(&job.lent(), &given, i, k, vertical), Ok(depth));
            assert_eq!(calls::depth(&job.lent(), &given, k, i, vertical), Ok(depth));
        }
        let conflict = oracle::conflicts(g, &pixels[0], &pixels[1], offset);
        let found = calls::shares_pixel(&job.lent(), &given, i, k);
        assert_eq!(found, Ok(conflict));
        if conflict && lowest.is_ok() {
            let places = [i, k];
            let cause = Cause::Conflict;
            lowest = Err(Refusal { cause, places });
        }
    }
    assert_eq!(calls::check(&job.lent(), &given), lowest);
}

#[test]
fn pairs_of_random_layouts() {
    let mut lcg = Lcg(77);
    for _ in 0..150 {
        let problem = lcg.problem(5, 6);
        let layout = lcg.layout(&problem);
        check_pairs(&problem, &layout);
    }
}

#[test]
fn previews_of_random_moves() {
    let mut lcg = Lcg(79);
    for _ in 0..100 {
        let problem = lcg.problem(5, 5);
        let job = Buffers::read(&problem.text());
        let (layout, to) = (lcg.layout(&problem), lcg.layout(&problem));
        let weights = lcg.weights(&problem);
        let wide: Vec<u32> = weights.iter().map(|&weight| u32::from(weight)).collect();
        for piece in 0..layout.len() {
            let mut moved = layout.clone();
            moved[piece] = to[piece];
            let given = Weighted {
                layout: &entries(&layout),
                weights: &wide,
            };
            let [turn, x, y] = entries(&to)[piece];
            let figures = calls::preview(&job.lent(), given, Move { piece, turn, x, y });
            let figures = figures.expect("both placements are right");
            assert_eq!(figures.sum, problem.sum(&moved, &weights, |_, _| true));
            assert_eq!(figures.length as i32, problem.used_length(&moved));
        }
    }
}

#[test]
fn no_fit_lines_of_random_pieces() {
    let mut lcg = Lcg(78);
    for _ in 0..100 {
        let (l, w) = (lcg.range(1, 6), lcg.range(1, 6));
        let panels = vec![lcg.panel(l, w, 60), lcg.panel(w, l, 60)];
        let (w, l) = (9, 9);
        let g = lcg.gap();
        let problem = Problem { w, l, g, panels };
        let job = Buffers::read(&problem.text());
        for vertical in [false, true] {
            check_lines(&problem, &job, vertical);
        }
    }
}

/// Compares the no-fit lines of two panels in turn 0 with the definitions.
fn check_lines(problem: &Problem, job: &Buffers, vertical: bool) {
    let pixels = [0, 1].map(|piece: usize| &problem.panels[piece].pixels);
    let (mut rows, mut columns) = (([[0; 3]; 99], [0; 3]), ([[0; 3]; 99], [0; 3]));
    let stores = [
        (&mut rows.0[..], &mut rows.1[..]),
        (&mut columns.0[..], &mut columns.1[..]),
    ];
    assert_eq!(calls::strips(&job.lent(), &[0, 0], stores), Ok(()));
    let lent = [(&rows.0[..], &rows.1[..]), (&columns.0[..], &columns.1[..])];
    let stretch = |piece| {
        let range = calls::stretch(&job.lent(), &[0, 0], lent, piece, vertical);
        Stretch {
            piece,
            turn: 0,
            strips: &lent[usize::from(vertical)].0[range.expect("the stores are right")],
        }
    };
    for offset in -16..=16 {
        let mut runs = [[0; 2]; 20];
        let pair = [stretch(0), stretch(1)];
        let count = calls::no_fit_line(&job.lent(), pair, vertical, offset, &mut runs);
        let covered = |&along: &i32| {
            let d = if vertical {
                (offset, along)
            } else {
                (along, offset)
            };
            oracle::conflicts(problem.g, pixels[0], pixels[1], d)
        };
        let found = &runs[..count.expect("the stretches are right")];
        let listed = found
            .iter()
            .flat_map(|&[first, count]| first..first + count);
        assert!(listed.eq((-30..30).filter(covered)));
        assert!(found
            .windows(2)
            .all(|pair| pair[0][0] + pair[0][1] < pair[1][0]));
    }
}
