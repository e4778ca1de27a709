//! Random jobs, compared with the definitions over pixel sets.

mod oracle;

use oracle::{Lcg, Place, Problem, STEPS};
use second::job::{self, Job};
use second::layout::{self, Placement};
use second::nofit::{BitShape, NoFit};
use second::penalty::PenaltyMaps;
use second::search::{End, Search};
use second::shape::{Direction, Turn};

/// The job that the program reads from an oracle's text.
fn job_of(problem: &Problem) -> Job {
    job::read(problem.text().as_bytes()).expect("the oracle writes jobs of right form")
}

/// The program's form of a placement.
fn placement(place: &Place) -> Placement {
    let (x, y) = place.corner;
    Placement {
        turn: Turn::ALL[place.turn as usize],
        x: x as usize,
        y: y as usize,
    }
}

/// The program's form of a layout.
fn placements(layout: &[Place]) -> Vec<Placement> {
    layout.iter().map(placement).collect()
}

/// Compares the penalties of two panels at every offset where their boxes come within the gap or nearly do.
fn check_all_offsets(problem: &Problem, turns: [i32; 2]) {
    let maps = PenaltyMaps::new(&job_of(problem));
    let pixels = [0, 1].map(|k| oracle::turned(&problem.panels[k], turns[k]));
    let boxes = [0, 1].map(|k| oracle::turned_box(&problem.panels[k], turns[k]));
    // The first corner is far enough from 0 that every second corner is not negative.
    let more = problem.g + 1;
    let base = (boxes[1].0 + more, boxes[1].1 + more);
    for dx in -boxes[1].0 - more..=boxes[0].0 + more {
        for dy in -boxes[1].1 - more..=boxes[0].1 + more {
            let first = Place {
                turn: turns[0],
                corner: base,
            };
            let second = Place {
                turn: turns[1],
                corner: (base.0 + dx, base.1 + dy),
            };
            let expected = oracle::penalty(problem.g, &pixels[0], &pixels[1], (dx, dy));
            let (first, second) = (placement(&first), placement(&second));
            assert_eq!(u64::from(maps.penalty(0, first, 1, second)), expected);
            assert_eq!(u64::from(maps.penalty(1, second, 0, first)), expected);
        }
    }
}

#[test]
fn penalty_maps_of_small_pieces() {
    let mut lcg = Lcg(1);
    for _ in 0..60 {
        let sides = [0; 4].map(|_| lcg.range(1, 6));
        let percent = lcg.range(30, 100);
        let panels = vec![
            lcg.panel(sides[0], sides[1], percent),
            lcg.panel(sides[2], sides[3], percent),
        ];
        let problem = Problem {
            w: 30,
            l: 30,
            g: lcg.gap(),
            panels,
        };
        for turns in 0..16 {
            check_all_offsets(&problem, [turns / 4, turns % 4]);
        }
    }
}

#[test]
fn widened_shapes() {
    let mut lcg = Lcg(13);
    for _ in 0..60 {
        let (l, w) = (lcg.range(1, 7), lcg.range(1, 7));
        let panel = lcg.panel(l, w, 40);
        let g = lcg.range(0, 8);
        let problem = Problem {
            w: 9,
            l: 9,
            g: 0,
            panels: vec![panel.clone()],
        };
        let widened = job_of(&problem).pieces[0].shape.widened(g as usize);
        assert_eq!(widened.columns() as i32, l + 2 * g);
        assert_eq!(widened.rows() as i32, w + 2 * g);
        let has = |x: i32, y: i32| {
            let cell = [(x - g, y - g)];
            oracle::conflicts(g, &panel.pixels, &cell, (0, 0))
        };
        for y in 0..widened.rows() {
            for x in 0..widened.columns() {
                assert_eq!(widened.has(x, y), has(x as i32, y as i32));
            }
        }
    }
}

#[test]
fn penalty_maps_of_equal_pieces() {
    let mut lcg = Lcg(2);
    for _ in 0..20 {
        let panel = lcg.panel(4, 3, 60);
        let problem = Problem {
            w: 20,
            l: 20,
            g: lcg.gap(),
            panels: vec![panel.clone(), panel],
        };
        for turns in 0..16 {
            check_all_offsets(&problem, [turns / 4, turns % 4]);
        }
    }
}

#[test]
fn penalty_maps_of_long_pieces() {
    let mut lcg = Lcg(3);
    for (sides, percent, g) in [
        ([70, 2, 64, 1], 20, 0),
        ([130, 1, 3, 3], 40, 0),
        ([65, 2, 2, 66], 12, 0),
        ([255, 1, 255, 1], 9, 0),
        ([130, 1, 3, 3], 40, 1),
        ([65, 2, 2, 66], 12, 3),
        ([255, 1, 255, 1], 9, 8),
    ] {
        let panels = vec![
            lcg.panel(sides[0], sides[1], percent),
            lcg.panel(sides[2], sides[3], percent),
        ];
        let problem = Problem {
            w: 100,
            l: 300,
            g,
            panels,
        };
        for turns in [[0, 0], [0, 1], [3, 2]] {
            check_all_offsets(&problem, turns);
        }
    }
}

#[test]
fn penalty_of_the_largest_full_pieces() {
    let lcg = &mut Lcg(4);
    let bar = lcg.panel(255, 1, 100);
    let problem = Problem {
        w: 255,
        l: 255,
        g: 0,
        panels: vec![bar.clone(), bar],
    };
    let maps = PenaltyMaps::new(&job_of(&problem));
    let lying = Placement {
        turn: Turn::ALL[0],
        x: 0,
        y: 0,
    };
    assert_eq!(maps.penalty(0, lying, 1, lying), 1);
    let region =
        |shape: &second::shape::Shape| NoFit::new(&BitShape::new(shape), &BitShape::new(shape));
    let bar = region(&job_of(&problem).pieces[0].shape);
    assert_eq!(bar.depth(Direction::Horizontal, 254, 0), 255);
    assert_eq!(bar.depth(Direction::Vertical, 254, 0), 1);
    let full = second::shape::Shape::new(255, vec![true; 255 * 255]);
    let pieces = vec![
        second::job::Piece::new(full.clone(), 1, false),
        second::job::Piece::new(full, 1, false),
    ];
    let maps = PenaltyMaps::new(&Job {
        rows: 255,
        columns: 255,
        gap: 0,
        pieces,
    });
    assert_eq!(maps.penalty(0, lying, 1, lying), 255);
    assert_eq!(
        maps.penalty(0, lying, 1, Placement { x: 100, ..lying }),
        155
    );
    assert_eq!(maps.penalty(0, lying, 1, Placement { y: 254, ..lying }), 1);
    assert_eq!(maps.penalty(0, lying, 1, Placement { y: 255, ..lying }), 0);
}

#[test]
fn depths_and_no_fit_rows() {
    let mut lcg = Lcg(5);
    for _ in 0..60 {
        let sides = [0; 4].map(|_| lcg.range(1, 6));
        let panels = vec![
            lcg.panel(sides[0], sides[1], 55),
            lcg.panel(sides[2], sides[3], 55),
        ];
        let g = lcg.gap();
        let problem = Problem {
            w: 9,
            l: 9,
            g,
            panels,
        };
        let job = job_of(&problem);
        let opposite = job.pieces[1].shape.turned(Turn::ALL[2]);
        let region = NoFit::new(
            &BitShape::new(&job.pieces[0].shape.widened(job.gap)),
            &BitShape::new(&opposite),
        );
        let (i, j) = (&problem.panels[0].pixels, &problem.panels[1].pixels);
        for row in 0..region.rows() {
            let mut covered = vec![false; region.columns()];
            let runs: Vec<_> = region.row_runs(row).collect();
            for &(first, count) in &runs {
                covered[first..first + count].fill(true);
            }
            assert!(runs
                .windows(2)
                .all(|pair| pair[0].0 + pair[0].1 < pair[1].0));
            for (column, covered) in covered.into_iter().enumerate() {
                let d = (
                    column as i32 - g - sides[2] + 1,
                    row as i32 - g - sides[3] + 1,
                );
                assert_eq!(covered, oracle::conflicts(g, i, j, d));
                for (direction, step) in Direction::ALL.into_iter().zip(STEPS) {
                    let depth = region.depth(direction, column, row) as u64;
                    assert_eq!(depth, oracle::depth(g, i, j, d, step));
                }
            }
        }
    }
}

#[test]
fn used_lengths() {
    let mut lcg = Lcg(12);
    let mut free_on_the_left = 0;
    for _ in 0..300 {
        let problem = lcg.problem(5, 5);
        let layout = lcg.layout(&problem);
        let found = layout::used_length(&job_of(&problem), &placements(&layout));
        assert_eq!(found as i32, problem.used_length(&layout));
        free_on_the_left += layout.iter().all(|place| place.corner.0 > 0) as i32;
    }
    assert!(free_on_the_left > 30);
}

#[test]
fn line_searches() {
    let mut lcg = Lcg(6);
    for _ in 0..120 {
        let problem = lcg.problem(5, 5);
        let job = job_of(&problem);
        let (layout, weights) = (lcg.layout(&problem), lcg.weights(&problem));
        let mut search = Search::new(&job, placements(&layout), &weights);
        for (panel, turn, step) in problem.trials() {
            let through = (lcg.range(0, problem.l - 1), lcg.range(0, problem.w - 1));
            let (direction, held) = match step {
                (1, 0) => (Direction::Horizontal, through.1),
                _ => (Direction::Vertical, through.0),
            };
            let turn_of = Turn::ALL[turn as usize];
            let found = search.line_search(panel, turn_of, direction, held as usize);
            let expected = problem.line_search(&layout, &weights, panel, turn, step, through);
            let in_words = |(sum, place): (u64, Place)| {
                let (x, y) = place.corner;
                (
                    sum,
                    if direction == Direction::Horizontal {
                        x
                    } else {
                        y
                    } as usize,
                )
            };
            assert_eq!(
                found.map(|best| (best.sum, best.coordinate)),
                expected.map(in_words)
            );
        }
    }
}

/// Compares descents of crowded jobs, which may be changed first.
fn check_descents(lcg: &mut Lcg, change: fn(&mut Lcg, Problem) -> Problem) {
    for _ in 0..80 {
        let problem = lcg.crowded_problem(6, 4);
        let problem = change(lcg, problem);
        let job = job_of(&problem);
        let (mut layout, weights) = (lcg.layout(&problem), lcg.weights(&problem));
        let budget = lcg.range(0, 90) as u64;
        let mut search = Search::new(&job, placements(&layout), &weights);
        let found = search.descent(budget);
        let expected = problem.descent(&mut layout, &weights, budget);
        let word = match found.end {
            End::Clear => "clear",
            End::Settled => "settled",
            End::Spent => "spent",
        };
        assert_eq!(word, expected.word);
        assert_eq!(
            (found.sum, found.trials, found.moves),
            (expected.sum, expected.trials, expected.moves)
        );
        assert_eq!(search.layout(), placements(&layout));
    }
}

#[test]
fn descents() {
    check_descents(&mut Lcg(7), |_, problem| problem);
    check_descents(&mut Lcg(14), Lcg::locked);
}

/// Compares guided runs of crowded jobs, which may be changed first.
fn check_guided_runs(lcg: &mut Lcg, change: fn(&mut Lcg, Problem) -> Problem) {
    for _ in 0..40 {
        let problem = lcg.crowded_problem(6, 4);
        let problem = change(lcg, problem);
        let job = job_of(&problem);
        let (layout, weights) = (lcg.layout(&problem), lcg.weights(&problem));
        let (rounds, budget) = (lcg.range(1, 8) as usize, lcg.range(0, 60) as u64);
        let found = Search::new(&job, placements(&layout), &weights).guided_run(rounds, budget);
        let expected = problem.guided_run(&layout, &weights, rounds, budget);
        assert_eq!(found.best, placements(&expected.0));
        assert_eq!((found.plain_sum, found.weights), (expected.1, expected.2));
        assert_eq!((found.trials, found.moves), (expected.3, expected.4));
    }
}

#[test]
fn guided_runs() {
    check_guided_runs(&mut Lcg(8), |_, problem| problem);
    check_guided_runs(&mut Lcg(15), Lcg::locked);
}

#[test]
fn locked_panels_stay() {
    let mut lcg = Lcg(17);
    let (mut with_moves, mut all_locked) = (0, 0);
    for _ in 0..80 {
        let problem = lcg.crowded_problem(6, 4);
        let problem = lcg.locked(problem);
        let job = job_of(&problem);
        let given = placements(&lcg.layout(&problem));
        let weights = vec![1; job.pair_count()];
        let run = Search::new(&job, given.clone(), &weights).guided_run(9, 200);
        for ((piece, before), after) in job.pieces.iter().zip(&given).zip(&run.best) {
            assert!(!piece.locked || before == after);
        }
        with_moves += i32::from(run.moves > 0 && job.pieces.iter().any(|piece| piece.locked));
        if job.pieces.iter().all(|piece| piece.locked) {
            assert_eq!((run.trials, run.moves), (0, 0));
            let open = Search::new(&job, given, &weights).descent(0);
            all_locked += i32::from(open.end == End::Settled);
        }
    }
    assert!(
        with_moves > 10 && all_locked > 5,
        "{with_moves}, {all_locked}"
    );
}

#[test]
fn starts_around_locked_panels() {
    let mut lcg = Lcg(18);
    for _ in 0..300 {
        let problem = lcg.problem(6, 5);
        let problem = lcg.locked(problem);
        let (job, given) = (job_of(&problem), lcg.layout(&problem));
        let found = layout::start(&job, |index| placement(&given[index]));
        assert_eq!(found, placements(&problem.start(&given)));
        assert_eq!(layout::own_start(&job), placements(&problem.own_start()));
    }
}

#[test]
fn whole_program() {
    let mut lcg = Lcg(9);
    for _ in 0..30 {
        for problem in [lcg.problem(5, 3), lcg.crowded_problem(6, 4)] {
            assert_eq!(second::run(problem.text().as_bytes()), problem.output());
        }
    }
    let mut lcg = Lcg(16);
    for _ in 0..30 {
        for problem in [lcg.problem(5, 3), lcg.crowded_problem(6, 4)] {
            let problem = lcg.locked(problem);
            assert_eq!(second::run(problem.text().as_bytes()), problem.output());
        }
    }
}
