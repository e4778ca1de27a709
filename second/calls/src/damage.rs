//! Damage to a memory that a call accepts. Each damage has the cause by which the call is refused if nothing else is damaged.

use second::calls::{self, Cause, TableEntry, PLANNER};
use second::inputs::random::Random;
use second::job::LOCKED;

use crate::guarded::{Cell, Guarded};
use crate::kind::Kind;
use crate::memory::Memory;

/// A way to spoil a memory.
#[derive(Clone, Copy)]
pub struct Damage {
    pub name: &'static str,
    pub cause: Cause,
    pub apply: fn(&mut Random, &mut Memory),
}

/// Shorthand for the tables below.
const fn damage(name: &'static str, cause: Cause, apply: fn(&mut Random, &mut Memory)) -> Damage {
    Damage { name, cause, apply }
}

/// Damage to a lent job.
const JOB: [Damage; 19] = [
    damage("rows", Cause::LentSheet, |random, memory| {
        memory.rows = above(random, memory.rows, 512);
    }),
    damage("columns", Cause::LentSheet, |random, memory| {
        memory.columns = above(random, memory.columns, 4_096);
    }),
    damage("no rows or columns", Cause::LentSheet, |random, memory| {
        let side = [&mut memory.rows, &mut memory.columns];
        *side[usize::from(random.chance(50))] = 0;
    }),
    damage("sheet area", Cause::LentSheet, |random, memory| {
        memory.rows = random.between(17, 512);
        memory.columns = (65_536 / memory.rows + random.pick(&[1, 1, 99])).min(4_096);
    }),
    damage("count", Cause::LentCount, |random, memory| {
        let count = above(random, memory.count, 64);
        memory.count = random.pick(&[0, count, count]);
    }),
    damage("gap", Cause::LentGap, |random, memory| {
        let gap = above(random, memory.gap, 8);
        memory.gap = random.pick(&[9, 255, 256 + memory.gap, gap, gap]);
    }),
    damage("table short", Cause::LentTable, |random, memory| {
        let length = random.between(0, memory.count.min(memory.table.length()).max(1) - 1);
        memory.table.cut(length.min(memory.table.length()));
    }),
    damage("box side of 0", Cause::LentBox, |random, memory| {
        let side = random.between(0, 1);
        change(random, memory, |entry| entry[side] = 0);
    }),
    damage(
        "box longer than the sheet",
        Cause::LentBox,
        |random, memory| {
            // No box is longer than a sheet of 255 columns, so such a sheet is made shorter.
            memory.columns = memory.columns.min(254);
            let side = random.between(memory.columns + 1, 255) as u8;
            change(random, memory, |entry| entry[0] = side);
        },
    ),
    damage(
        "box wider than the sheet",
        Cause::LentBox,
        |random, memory| {
            memory.rows = memory.rows.min(254);
            let side = random.between(memory.rows + 1, 255) as u8;
            change(random, memory, |entry| entry[1] = side);
        },
    ),
    damage("even turns", Cause::LentTurns, |random, memory| {
        let turns = 2 * random.between(0, 127) as u8;
        change(random, memory, |entry| entry[2] = turns);
    }),
    damage("turns above 15", Cause::LentTurns, |random, memory| {
        let turns = 2 * random.between(8, 127) as u8 + 1;
        change(random, memory, |entry| entry[2] = turns);
    }),
    damage("lock", Cause::LentLock, |random, memory| {
        let lock = random.between(2, 255) as u8;
        let lock = random.pick(&[2, 3, 128, 255, lock, lock]);
        change(random, memory, |entry| entry[3] = lock);
    }),
    damage("box areas", Cause::LentAreas, |random, memory| {
        // Full boxes with all their pixels there, of one pixel too many or of twice as many.
        let table: &[TableEntry] = if random.chance(50) {
            &[[255, 255, 1, 0], [255, 2, 1, 1], [1, 1, 1, 0], [1, 1, 1, 0]]
        } else {
            &[[255, 255, 1, 0], [255, 255, 1, 0]]
        };
        (memory.rows, memory.columns, memory.count) = (256, 256, table.len());
        memory.table = Guarded::new(table);
        memory.pixels = Guarded::new(&vec![1; area(memory)]);
    }),
    damage("pixels short", Cause::LentPixels, |random, memory| {
        let area = area(memory).min(memory.pixels.length()).max(1);
        let length = random.pick(&[0, area / 2, area - 1]);
        memory.pixels.cut(length.min(memory.pixels.length()));
    }),
    damage("pixel byte", Cause::LentPixel, |random, memory| {
        let byte = random.pick(&[2, 3, 48, 128, 254, 255]);
        let area = area(memory).min(memory.pixels.length());
        if area > 0 {
            memory.pixels.get_mut()[random.between(0, area - 1)] = byte;
        }
    }),
    damage("no pixels", Cause::LentLoose, |_, memory| {
        memory.pixels.get_mut().fill(0);
    }),
    damage("loose rows", Cause::LentLoose, |random, memory| {
        loosen(random, memory, |[_, rows], _, y, first| {
            y == if first { 0 } else { rows - 1 }
        });
    }),
    damage("loose columns", Cause::LentLoose, |random, memory| {
        loosen(random, memory, |[columns, _], x, _, first| {
            x == if first { 0 } else { columns - 1 }
        });
    }),
];

/// The station that asks for a lock.
const STATION: [Damage; 2] = [
    damage("station", Cause::Station, |random, memory| {
        // Some are the cutter's or the planner's where they are cut to a byte or a word.
        let cut = [256, 257, 65_536, 65_537, 1 << 32, (1 << 32) + 1];
        let near = [2, 2, 3, 255, usize::MAX];
        memory.numbers.station = random.pick(&[&near[..], &cut[..]].concat());
    }),
    damage("planner's station", Cause::NotTheCutter, |_, memory| {
        memory.numbers.station = PLANNER;
    }),
];

/// The placements of locked pieces that a start is given; a piece is locked for it where none is.
const LOCKED_PLACES: [Damage; 3] = [
    damage(
        "turn of a locked piece",
        Cause::LockedTurn,
        |random, memory| {
            if let Some(piece) = locked_piece(random, memory) {
                memory.layout.get_mut()[piece][0] = wrong_turn(random, memory, piece);
            }
        },
    ),
    damage(
        "column of a locked piece",
        Cause::LockedOutside,
        |random, memory| {
            locked_outside(random, memory, 1);
        },
    ),
    damage(
        "row of a locked piece",
        Cause::LockedOutside,
        |random, memory| {
            locked_outside(random, memory, 2);
        },
    ),
];

/// The lock of a piece that is to be withdrawn.
const LOCKED_PIECE: [Damage; 1] = [damage("piece locked", Cause::Locked, |_, memory| {
    let piece = memory.numbers.i;
    if let Some(entry) = entries(memory).get_mut(piece) {
        entry[3] = LOCKED as u8;
    }
})];

/// A list of turns.
const TURNS: [Damage; 2] = [
    damage("number of turns", Cause::TurnsLength, |random, memory| {
        wrong_length(random, &mut memory.turns);
    }),
    damage("a turn of the list", Cause::Turn, |random, memory| {
        let Some(place) = place_in(random, memory.turns.length()) else {
            return;
        };
        memory.turns.get_mut()[place] = wrong_turn(random, memory, place);
    }),
];

/// Stores and starts without room.
const STORES_SHORT: [Damage; 4] = [
    damage("row store short", Cause::BufferShort, |random, memory| {
        let needed = needed_strips(memory)[0];
        shorten(random, &mut memory.row_strips, needed);
    }),
    damage("row starts short", Cause::BufferShort, |random, memory| {
        shorten(
            random,
            &mut memory.row_starts,
            memory.count.saturating_add(1),
        );
    }),
    damage(
        "column store short",
        Cause::BufferShort,
        |random, memory| {
            let needed = needed_strips(memory)[1];
            shorten(random, &mut memory.column_strips, needed);
        },
    ),
    damage(
        "column starts short",
        Cause::BufferShort,
        |random, memory| {
            shorten(
                random,
                &mut memory.column_starts,
                memory.count.saturating_add(1),
            );
        },
    ),
];

/// Stores and starts that are not the job's.
const STORES_WRONG: [Damage; 7] = [
    damage("row strip", Cause::Store, |random, memory| {
        let needed = needed_strips(memory)[0];
        spoil(random, &mut memory.row_strips, needed);
    }),
    damage("column strip", Cause::Store, |random, memory| {
        let needed = needed_strips(memory)[1];
        spoil(random, &mut memory.column_strips, needed);
    }),
    damage("row start", Cause::Store, |random, memory| {
        spoil(
            random,
            &mut memory.row_starts,
            memory.count.saturating_add(1),
        );
    }),
    damage("column start", Cause::Store, |random, memory| {
        spoil(
            random,
            &mut memory.column_starts,
            memory.count.saturating_add(1),
        );
    }),
    damage("row store short", Cause::Store, |random, memory| {
        let needed = needed_strips(memory)[0];
        shorten(random, &mut memory.row_strips, needed);
    }),
    damage("column store short", Cause::Store, |random, memory| {
        let needed = needed_strips(memory)[1];
        shorten(random, &mut memory.column_strips, needed);
    }),
    damage("starts short", Cause::Store, |random, memory| {
        let needed = memory.count.saturating_add(1);
        if random.chance(50) {
            shorten(random, &mut memory.row_starts, needed);
        } else {
            shorten(random, &mut memory.column_starts, needed);
        }
    }),
];

/// The piece of a call, or the first of a pair.
const PIECE: [Damage; 1] = [damage("no such piece", Cause::NoPiece, |random, memory| {
    memory.numbers.i = no_piece(random, memory);
})];

/// The second piece of a pair.
const SECOND_PIECE: [Damage; 1] = [damage(
    "no such second piece",
    Cause::NoPiece,
    |random, memory| {
        memory.numbers.k = no_piece(random, memory);
    },
)];

/// A pair that is none.
const SAME_PIECE: [Damage; 1] = [damage("one piece twice", Cause::SamePiece, |_, memory| {
    memory.numbers.k = memory.numbers.i;
})];

/// The turn of a call, or of the first piece of a pair.
const TURN: [Damage; 1] = [damage("turn", Cause::Turn, |random, memory| {
    memory.numbers.turn = wrong_turn(random, memory, memory.numbers.i);
})];

/// The turn of the second piece of a pair.
const SECOND_TURN: [Damage; 1] = [damage("second turn", Cause::Turn, |random, memory| {
    memory.numbers.k_turn = wrong_turn(random, memory, memory.numbers.k);
})];

/// The strips of a pair.
const STRETCHES: [Damage; 4] = [
    damage(
        "strip of the first piece",
        Cause::Stretch,
        |random, memory| {
            let length = memory.row_strips.length();
            spoil(random, &mut memory.row_strips, length);
        },
    ),
    damage(
        "strip of the second piece",
        Cause::Stretch,
        |random, memory| {
            let length = memory.column_strips.length();
            spoil(random, &mut memory.column_strips, length);
        },
    ),
    damage(
        "strips of the first piece",
        Cause::Stretch,
        |random, memory| {
            wrong_length(random, &mut memory.row_strips);
        },
    ),
    damage(
        "strips of the second piece",
        Cause::Stretch,
        |random, memory| {
            wrong_length(random, &mut memory.column_strips);
        },
    ),
];

/// The box and the strips of a rebuilding.
const BOX: [Damage; 7] = [
    damage("side of 0", Cause::Side, |random, memory| {
        let numbers = &mut memory.numbers;
        let sides = [&mut numbers.box_columns, &mut numbers.box_rows];
        *sides[usize::from(random.chance(50))] = 0;
    }),
    damage("side above 255", Cause::Side, |random, memory| {
        let numbers = &mut memory.numbers;
        let sides = [&mut numbers.box_columns, &mut numbers.box_rows];
        let side = &mut *sides[usize::from(random.chance(50))];
        // The right side in the low byte finds a side that is cut to a byte.
        *side = random.pick(&[256, 256 + *side % 256, 65_280 + *side % 256, 65_535]);
    }),
    damage("larger box", Cause::Strips, |random, memory| {
        let numbers = &mut memory.numbers;
        let sides = [&mut numbers.box_columns, &mut numbers.box_rows];
        let side = &mut *sides[usize::from(random.chance(50))];
        *side = if *side < 255 { *side + 1 } else { *side - 1 };
    }),
    damage("strip", Cause::Strips, |random, memory| {
        // A strip of count 0 is none of any piece.
        if let Some(place) = place_in(random, memory.row_strips.length()) {
            memory.row_strips.get_mut()[place][2] = 0;
        }
    }),
    damage("strip in two", Cause::Strips, |_, memory| {
        let mut strips = memory.row_strips.get().to_vec();
        let long = |strip: &[u8; 3]| strip[2] > 1;
        if let Some(place) = strips.iter().position(long) {
            let [line, first, count] = strips[place];
            strips[place] = [line, first, 1];
            strips.insert(place + 1, [line, first.wrapping_add(1), count - 1]);
        } else {
            strips.push([255, 0, 1]);
        }
        memory.row_strips = Guarded::new(&strips);
    }),
    damage("strip twice or outside", Cause::Strips, |random, memory| {
        let mut strips = memory.row_strips.get().to_vec();
        match (place_in(random, strips.len()), random.between(0, 2)) {
            (Some(place), 0) => strips.insert(place, strips[place]),
            (Some(place), 1) => strips[place] = [254, 254, 254],
            _ => strips.push([255, 255, 255]),
        }
        memory.row_strips = Guarded::new(&strips);
    }),
    damage("no strips", Cause::Strips, |_, memory| {
        memory.row_strips.cut(0);
    }),
];

/// The room for rebuilt pixels.
const REBUILT_SHORT: [Damage; 1] = [damage(
    "pixel buffer short",
    Cause::BufferShort,
    |random, memory| {
        let needed = usize::from(memory.numbers.box_columns) * usize::from(memory.numbers.box_rows);
        shorten(random, &mut memory.output, needed);
    },
)];

/// The room for runs.
const RUNS_SHORT: [Damage; 1] = [damage(
    "run buffer short",
    Cause::BufferShort,
    |_, memory| {
        // Both boxes are tight, so at offset 0 both have a pixel in line 0 and there is a run.
        memory.numbers.offset = 0;
        memory.runs.cut(0);
    },
)];

/// The length of a layout.
const LAYOUT_LENGTH: [Damage; 1] = [damage(
    "layout length",
    Cause::LayoutLength,
    |random, memory| {
        wrong_length(random, &mut memory.layout);
    },
)];

/// The placements of a layout.
const LAYOUT: [Damage; 3] = [
    damage("turn of the layout", Cause::LayoutTurn, |random, memory| {
        let Some(place) = place_in(random, memory.layout.length()) else {
            return;
        };
        memory.layout.get_mut()[place][0] = wrong_turn(random, memory, place);
    }),
    damage("column of the layout", Cause::Outside, |random, memory| {
        outside(random, memory, 1);
    }),
    damage("row of the layout", Cause::Outside, |random, memory| {
        outside(random, memory, 2);
    }),
];

/// Weights.
const WEIGHTS: [Damage; 2] = [
    damage(
        "number of weights",
        Cause::WeightsLength,
        |random, memory| {
            wrong_length(random, &mut memory.weights);
        },
    ),
    damage("weight", Cause::Weight, |random, memory| {
        if let Some(place) = place_in(random, memory.weights.length()) {
            let weight = &mut memory.weights.get_mut()[place];
            *weight = random.pick(&[0, 65_536, 65_536 + *weight % 65_536, u32::MAX]);
        }
    }),
];

/// A budget.
const BUDGET: [Damage; 1] = [damage("budget", Cause::Budget, |random, memory| {
    memory.numbers.budget = random.pick(&[1_000_000_001, 1 << 31, u32::MAX]);
})];

/// A number of rounds.
const ROUNDS: [Damage; 1] = [damage("rounds", Cause::Rounds, |random, memory| {
    memory.numbers.rounds = random.pick(&[0, 1_001, 65_537, u32::MAX]);
})];

/// The pitch of a cut list.
const PITCH: [Damage; 1] = [damage("pitch", Cause::Pitch, |random, memory| {
    memory.numbers.pitch = random.pick(&[0, 4_097, 65_536, 65_536 + 64, u32::MAX]);
})];

/// The room for the lines of a cut list.
const LINES_SHORT: [Damage; 1] = [damage(
    "line buffer short",
    Cause::BufferShort,
    |random, memory| {
        let needed = cut_lines(memory);
        shorten(random, &mut memory.cut_lines, needed);
    },
)];

/// The line of a search.
const HELD: [Damage; 1] = [damage("held line", Cause::NoPlace, |random, memory| {
    memory.numbers.held = random.pick(&[4_096, 32_768, 65_535]);
})];

/// The room for a layout text.
const TEXT_SHORT: [Damage; 1] = [damage(
    "text buffer short",
    Cause::BufferShort,
    |random, memory| {
        let needed = memory.text.length();
        shorten(random, &mut memory.output, needed);
    },
)];

/// The room for the program's output.
const OUTPUT_SHORT: [Damage; 1] = [damage(
    "output buffer short",
    Cause::BufferShort,
    |random, memory| {
        let needed = second::run(memory.text.get()).len();
        shorten(random, &mut memory.output, needed);
    },
)];

/// The room for a job that is read.
const READ_BUFFERS: [Damage; 2] = [
    damage("table short", Cause::BufferShort, |random, memory| {
        let length = memory.table.length().saturating_sub(random.between(4, 70));
        memory.table.cut(length);
    }),
    damage("pixel store short", Cause::BufferShort, |random, memory| {
        let length = memory
            .pixels
            .length()
            .saturating_sub(random.between(10, 500));
        memory.pixels.cut(length);
    }),
];

/// The length of the counts.
const COUNTS_LENGTH: [Damage; 1] = [damage(
    "number of counts",
    Cause::CountsLength,
    |random, memory| {
        wrong_length(random, &mut memory.counts);
    },
)];

/// A record and counts.
const SHEET: [Damage; 7] = [
    damage("laid neither 1 nor 0", Cause::Record, |random, memory| {
        let laid = random.pick(&[2, 3, 256, 257, 65_535]);
        let entry = entry(random, memory, true);
        memory.record.get_mut()[entry][0] = laid;
    }),
    damage("turn of a laid piece", Cause::Record, |random, memory| {
        let entry = entry(random, memory, true);
        memory.record.get_mut()[entry][0] = 1;
        memory.record.get_mut()[entry][1] = wrong_turn(random, memory, entry);
    }),
    damage("laid piece outside", Cause::Record, |random, memory| {
        let corner = random.between(2, 3);
        let entry = entry(random, memory, true);
        memory.record.get_mut()[entry][0] = 1;
        memory.record.get_mut()[entry][corner] = random.pick(&[4_096, 32_768, 65_535]);
    }),
    damage(
        "piece not laid with a place",
        Cause::Record,
        |random, memory| {
            let entry = entry(random, memory, false);
            memory.record.get_mut()[entry] =
                random.pick(&[[0, 90, 0, 0], [0, 0, 1, 0], [0, 0, 0, 7]]);
        },
    ),
    damage(
        "entry beyond the pieces",
        Cause::Record,
        |random, memory| {
            let beyond = memory.count.min(63);
            let entry = random.between(beyond, 63);
            memory.record.get_mut()[entry] =
                random.pick(&[[1, 0, 0, 0], [0, 0, 0, 1], [2, 0, 0, 0]]);
        },
    ),
    damage("count", Cause::Counts, |random, memory| {
        if let Some(place) = place_in(random, memory.counts.length()) {
            let by = random.pick(&[1, 255, 128]);
            let count = &mut memory.counts.get_mut()[place];
            *count = count.wrapping_add(by);
        }
    }),
    damage(
        "laid in the record or in the counts alone",
        Cause::Counts,
        |random, memory| {
            let laid = random.chance(50);
            let entry = entry(random, memory, laid);
            let entry = &mut memory.record.get_mut()[entry];
            *entry = if *entry == [0; 4] {
                [1, 0, 0, 0]
            } else {
                [0; 4]
            };
        },
    ),
];

/// The place at which a piece is to be laid.
const LAY_OUTSIDE: [Damage; 1] = [damage("place to lay", Cause::Outside, |random, memory| {
    let far = random.pick(&[4_096, 32_768, 65_535]);
    let numbers = &mut memory.numbers;
    let corner = [&mut numbers.x, &mut numbers.y];
    *corner[usize::from(random.chance(50))] = far;
})];

/// The places of a piece that is moved, the old one and the new one.
const MOVED: [Damage; 2] = [
    damage(
        "old place of the moved piece",
        Cause::Outside,
        |random, memory| {
            let field = random.between(1, 2);
            let piece = memory.numbers.i;
            if let Some(&[turn, ..]) = memory.layout.get().get(piece) {
                let corner = corner_outside(random, memory, piece, turn, field);
                memory.layout.get_mut()[piece][field] = corner;
            }
        },
    ),
    damage(
        "new place of the moved piece",
        Cause::NewOutside,
        |random, memory| {
            let field = random.between(1, 2);
            let (piece, turn) = (memory.numbers.i, memory.numbers.turn);
            let corner = corner_outside(random, memory, piece, turn, field);
            let numbers = &mut memory.numbers;
            *[&mut numbers.x, &mut numbers.y][field - 1] = corner;
        },
    ),
];

/// Every damage that the causes of a call know: those of the call itself, and those of its job.
pub fn damages(kind: Kind) -> (Vec<Damage>, &'static [Damage]) {
    let own: &[&[Damage]] = match kind {
        Kind::ReadJob => &[&READ_BUFFERS],
        Kind::SetLock => &[&PIECE, &STATION],
        Kind::Strips => &[&TURNS, &STORES_SHORT],
        Kind::Stretch | Kind::StretchRefusal => &[&PIECE, &TURNS, &STORES_WRONG],
        Kind::Rebuild => &[&BOX, &REBUILT_SHORT],
        Kind::NoFitRow | Kind::NoFitColumn => &[
            &PIECE,
            &SECOND_PIECE,
            &TURN,
            &SECOND_TURN,
            &STRETCHES,
            &RUNS_SHORT,
        ],
        Kind::SharesPixel | Kind::Depth | Kind::Penalty => {
            &[&LAYOUT_LENGTH, &PIECE, &SECOND_PIECE, &SAME_PIECE, &LAYOUT]
        }
        Kind::WeightedSum => &[&LAYOUT_LENGTH, &WEIGHTS, &LAYOUT],
        Kind::PlainSum | Kind::UsedLength | Kind::Check | Kind::Compact => {
            &[&LAYOUT_LENGTH, &LAYOUT]
        }
        Kind::Preview => &[&LAYOUT_LENGTH, &WEIGHTS, &PIECE, &TURN, &LAYOUT, &MOVED],
        Kind::CutLines => &[&LAYOUT_LENGTH, &LAYOUT, &LINES_SHORT],
        Kind::CutStep => &[&LAYOUT_LENGTH, &PITCH, &LAYOUT],
        Kind::LineStep => &[&PITCH],
        Kind::Start => &[&LAYOUT_LENGTH, &LOCKED_PLACES],
        Kind::ReadLayout => &[&LAYOUT_LENGTH],
        Kind::WriteLayout => &[&LAYOUT_LENGTH, &LAYOUT, &TEXT_SHORT],
        Kind::LineSearch => &[&LAYOUT_LENGTH, &WEIGHTS, &PIECE, &TURN, &LAYOUT, &HELD],
        Kind::Descent => &[&LAYOUT_LENGTH, &WEIGHTS, &BUDGET, &LAYOUT],
        Kind::GuidedRun => &[&LAYOUT_LENGTH, &WEIGHTS, &BUDGET, &ROUNDS, &LAYOUT],
        Kind::Program => &[&OUTPUT_SHORT],
        Kind::Fresh => &[&COUNTS_LENGTH],
        Kind::Lay => &[&COUNTS_LENGTH, &SHEET, &PIECE, &TURN, &LAY_OUTSIDE],
        Kind::Withdraw => &[&COUNTS_LENGTH, &SHEET, &PIECE, &LOCKED_PIECE],
    };
    (own.concat(), if kind.is_lent_a_job() { &JOB } else { &[] })
}

/// How many lines a cut list has, 0 where there is none.
fn cut_lines(memory: &Memory) -> usize {
    let mut lines = memory.cut_lines.clone();
    calls::cut_lines(&memory.job(), memory.layout.get(), lines.get_mut()).unwrap_or(0)
}

/// A place in a buffer, if it has one.
fn place_in(random: &mut Random, length: usize) -> Option<usize> {
    (length > 0).then(|| random.between(0, length - 1))
}

/// A number above a limit. Some have the right number in their low bits, to find one that is cut.
fn above(random: &mut Random, right: usize, limit: usize) -> usize {
    let far = [1 << 16, 1 << 32, 1 << 63].map(|more| right.wrapping_add(more).max(limit + 1));
    let [short, long, longest] = far;
    random.pick(&[limit + 1, short, long, longest, usize::MAX, usize::MAX - 1])
}

/// A number that no piece has.
fn no_piece(random: &mut Random, memory: &Memory) -> usize {
    let (count, right) = (memory.count, memory.numbers.i);
    let far = [1 << 8, 1 << 16, 1 << 32].map(|more: usize| right.wrapping_add(more));
    let near = [count, count, 64, usize::MAX, usize::MAX - 63];
    let number = random.pick(&[&near[..], &far[..]].concat());
    number.max(count)
}

/// Degrees that a piece may not take: none of the four, or one that its turns leave out.
fn wrong_turn(random: &mut Random, memory: &Memory, piece: usize) -> u16 {
    let turns = memory.table.get().get(piece).map_or(15, |entry| entry[2]);
    let left_out = (0..4).filter(|quarter| turns >> quarter & 1 == 0);
    let mut wrong: Vec<u16> = left_out.map(|quarter| 90 * quarter).collect();
    wrong.extend([1, 3, 45, 91, 256, 346, 360, 65_535]);
    random.pick(&wrong)
}

/// Gives a buffer of an exact length another one.
fn wrong_length<T: Cell>(random: &mut Random, buffer: &mut Guarded<T>) {
    let length = buffer.length();
    match random.between(0, 3) {
        0 if length > 0 => buffer.cut(0),
        1 | 2 if length > 0 => buffer.cut(length - 1),
        _ => buffer.extend(random, 1),
    }
}

/// Makes a buffer shorter than needed, often by one.
fn shorten<T: Cell>(random: &mut Random, buffer: &mut Guarded<T>, needed: usize) {
    let longest = needed.max(1) - 1;
    let length = random.pick(&[0, longest / 2, longest, longest]);
    buffer.cut(length.min(buffer.length()));
}

/// Changes one of the first elements of a buffer by a little.
fn spoil<T: Cell>(random: &mut Random, buffer: &mut Guarded<T>, needed: usize) {
    let Some(place) = place_in(random, needed.min(buffer.length())) else {
        return;
    };
    let part = random.between(0, 2);
    let element = &mut buffer.get_mut()[place];
    *element = element.next(part);
}

/// How many strips the row store and the column store need; one each where the job or the turns are damaged already.
fn needed_strips(memory: &Memory) -> [usize; 2] {
    let room = area(memory).min(65_536);
    let starts_room = memory.count.min(64) + 1;
    let mut rows = (vec![[0; 3]; room], vec![0; starts_room]);
    let mut columns = rows.clone();
    let stores = [
        (&mut rows.0[..], &mut rows.1[..]),
        (&mut columns.0[..], &mut columns.1[..]),
    ];
    match second::calls::strips(&memory.job(), memory.turns.get(), stores) {
        Ok(()) => [rows.1, columns.1].map(|starts| starts[starts_room - 1] as usize),
        Err(_) => [1, 1],
    }
}

/// The table entries that the job has.
fn entries(memory: &mut Memory) -> &mut [TableEntry] {
    let count = memory.count.min(memory.table.length());
    &mut memory.table.get_mut()[..count]
}

/// Changes a table entry.
fn change(random: &mut Random, memory: &mut Memory, to: impl Fn(&mut TableEntry)) {
    let entries = entries(memory);
    if let Some(place) = place_in(random, entries.len()) {
        to(&mut entries[place]);
    }
}

/// The pixels that the boxes of the table have.
fn area(memory: &Memory) -> usize {
    let count = memory.count.min(memory.table.length());
    memory.table.get()[..count].iter().map(box_area).sum()
}

/// The pixels of a table entry's box.
fn box_area(&[columns, rows, ..]: &TableEntry) -> usize {
    usize::from(columns) * usize::from(rows)
}

/// Takes the pixels of a first or last line out of a piece's box; the test is given the box, a cell and whether it is the first line.
fn loosen(
    random: &mut Random,
    memory: &mut Memory,
    on_line: impl Fn([usize; 2], usize, usize, bool) -> bool,
) {
    let first = random.chance(50);
    let entries = entries(memory).to_vec();
    let Some(piece) = place_in(random, entries.len()) else {
        return;
    };
    let begin: usize = entries[..piece].iter().map(box_area).sum();
    let [columns, rows] = [entries[piece][0], entries[piece][1]].map(usize::from);
    let store = memory.pixels.get_mut();
    for y in 0..rows {
        for x in 0..columns {
            let cell = store.get_mut(begin + y * columns + x);
            if let Some(byte) = cell.filter(|_| on_line([columns, rows], x, y, first)) {
                *byte = 0;
            }
        }
    }
}

/// Moves a corner of the layout outside, often just so; field 1 is the column, field 2 the row.
fn outside(random: &mut Random, memory: &mut Memory, field: usize) {
    let Some(place) = place_in(random, memory.layout.length()) else {
        return;
    };
    let turn = memory.layout.get()[place][0];
    let corner = corner_outside(random, memory, place, turn, field);
    memory.layout.get_mut()[place][field] = corner;
}

/// A locked piece that has an entry of the layout. Where there is none, a piece is locked and given a place at the sheet's corner, in turn 0,
/// so that nothing else is wrong with it.
fn locked_piece(random: &mut Random, memory: &mut Memory) -> Option<usize> {
    let known = memory.layout.length();
    let locked: Vec<usize> = (0..known)
        .zip(memory.locks())
        .filter_map(|(piece, locked)| locked.then_some(piece))
        .collect();
    if let Some(place) = place_in(random, locked.len()) {
        return Some(locked[place]);
    }
    let piece = place_in(random, known.min(entries(memory).len()))?;
    entries(memory)[piece][3] = LOCKED as u8;
    memory.layout.get_mut()[piece] = [0; 3];
    Some(piece)
}

/// Moves a locked piece of the layout outside; field 1 is the column, field 2 the row.
fn locked_outside(random: &mut Random, memory: &mut Memory, field: usize) {
    if let Some(piece) = locked_piece(random, memory) {
        let turn = memory.layout.get()[piece][0];
        let corner = corner_outside(random, memory, piece, turn, field);
        memory.layout.get_mut()[piece][field] = corner;
    }
}

/// A coordinate at which a piece in a turn leaves the sheet, often just so; field 1 is the column, field 2 the row.
fn corner_outside(
    random: &mut Random,
    memory: &Memory,
    piece: usize,
    turn: u16,
    field: usize,
) -> u16 {
    let entry = memory.table.get().get(piece).copied().unwrap_or([1; 4]);
    let sideways = turn % 180 == 90;
    let sheet = [memory.columns, memory.rows][field - 1];
    let side = entry[usize::from((field == 2) != sideways)];
    let beyond = sheet.min(4_096) + 1 - usize::from(side).min(sheet.min(4_096));
    random.pick(&[beyond as u16, beyond as u16, 4_096, 32_768, 65_535])
}

/// An entry of the record that is laid, or one that is not; any of a piece where there is none such.
fn entry(random: &mut Random, memory: &Memory, laid: bool) -> usize {
    let pieces = memory.count.clamp(1, 64);
    let entries = &memory.record.get()[..pieces];
    let fitting: Vec<usize> = (0..pieces)
        .filter(|&piece| (entries[piece][0] == 1) == laid)
        .collect();
    match place_in(random, fitting.len()) {
        Some(place) => fitting[place],
        None => random.between(0, pieces - 1),
    }
}

#[cfg(test)]
mod tests {
    use super::*;
    use crate::expected;
    use crate::scene::Scene;

    /// Every damage of a call.
    fn all(kind: Kind) -> Vec<Damage> {
        let (own, job) = damages(kind);
        [&own, job].concat()
    }

    /// Six pieces with some turns left out and some of them locked, on a sheet that has room.
    fn scene(locks: [u8; 6]) -> Scene {
        let piece = |number: usize, turns: usize| {
            let lock = locks[number];
            format!("piece,{number},3,2,{turns},{lock}\nrow,###\nrow,#.#\n")
        };
        let turns = [1, 3, 5, 7, 9, 11];
        let pieces: String = (0..6).map(|number| piece(number, turns[number])).collect();
        let text = format!("job,3,9,20,6,0\n{pieces}");
        Scene::new("test".to_string(), text.into_bytes())
    }

    #[test]
    fn each_damage_alone_gives_its_cause() {
        each_alone(&scene([0; 6]));
        each_alone(&scene([0, 1, 0, 0, 1, 1]));
    }

    /// Every damage alone on a scene.
    fn each_alone(scene: &Scene) {
        let mut random = Random::new(1);
        for kind in Kind::ALL {
            for damage in all(kind) {
                let mut tried = 0;
                while tried < 40 {
                    let mut memory = scene.memory(&mut random, kind);
                    if expected::call(kind, &mut memory.clone()).cause.is_some() {
                        continue;
                    }
                    (damage.apply)(&mut random, &mut memory);
                    let cause = expected::call(kind, &mut memory).cause;
                    assert_eq!(cause, Some(damage.cause), "{kind:?}, {}", damage.name);
                    tried += 1;
                }
            }
        }
    }

    #[test]
    fn a_refused_call_changes_nothing() {
        let (scene, mut random) = (scene([0, 1, 0, 0, 1, 1]), Random::new(2));
        for kind in Kind::ALL {
            for damage in all(kind) {
                let mut memory = scene.memory(&mut random, kind);
                (damage.apply)(&mut random, &mut memory);
                let before = memory.clone();
                if expected::call(kind, &mut memory).cause.is_some() {
                    assert!(memory == before, "{kind:?}, {}", damage.name);
                }
            }
        }
    }

    #[test]
    fn damages_know_only_causes_of_their_call() {
        for kind in Kind::ALL {
            let causes = kind.causes();
            assert!(all(kind)
                .iter()
                .all(|damage| causes.contains(&damage.cause)));
        }
    }
}
