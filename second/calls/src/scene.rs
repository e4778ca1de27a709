//! Inputs that the calls accept, made from a job.

use std::cmp::Reverse;

use second::calls::{self, Lent, TableEntry, CUTTER, OUTPUT, RECORD};
use second::inputs::random::Random;
use second::job::{self, Job, MAX_AREA};
use second::layout;
use second::shape::Turn;

use crate::expected;
use crate::guarded::{Cell, Guarded};
use crate::kind::Kind;
use crate::memory::Memory;

/// Trials that a search may take where the pieces are large.
const SHORT_BUDGET: usize = 400;

/// Places that are tried for a piece of a layout that is spread out.
const TRIES: usize = 60;

/// The columns of the longest sheet that has so many rows.
pub fn longest_sheet(rows: usize) -> usize {
    4_096.min(MAX_AREA / rows)
}

/// A job, as text and as read.
pub struct Scene {
    pub name: String,
    pub text: Vec<u8>,
    job: Job,
    table: Vec<TableEntry>,
    pixels: Vec<u8>,
}

impl Scene {
    /// The scene of a job text that is accepted.
    pub fn new(name: String, text: Vec<u8>) -> Scene {
        let job = job::read(&text).expect("the text is that of a job");
        let area: usize = job
            .pieces
            .iter()
            .map(|piece| piece.shape.columns() * piece.shape.rows())
            .sum();
        let (mut table, mut pixels) = (vec![[0; 4]; job.pieces.len()], vec![0; area]);
        calls::read_job(&text, &mut table, &mut pixels).expect("the buffers are long enough");
        Scene {
            name,
            text,
            job,
            table,
            pixels,
        }
    }

    /// Rows and columns of the sheet.
    pub fn sheet(&self) -> [usize; 2] {
        [self.job.rows, self.job.columns]
    }

    /// The same pieces on another sheet, which has room for each.
    pub fn on_sheet(&self, rows: usize, columns: usize) -> Scene {
        let text = String::from_utf8_lossy(&self.text);
        let fields: Vec<&str> = text.splitn(5, ',').collect();
        let [word, version, _, _, rest] = fields[..] else {
            unreachable!("a job text has more fields");
        };
        let text = format!("{word},{version},{rows},{columns},{rest}");
        Scene::new(self.name.clone(), text.into_bytes())
    }

    /// The same pieces on a longer sheet, often the longest that there is, and now and then on a wider one.
    fn on_larger_sheet(&self, random: &mut Random) -> Scene {
        let rows = self.job.rows * random.pick(&[1, 1, 2]);
        let rows = rows.min(512.min(MAX_AREA / self.job.columns));
        let longest = longest_sheet(rows);
        let columns = self.job.columns * random.pick(&[2, 3, 5, longest]);
        self.on_sheet(rows, columns.min(longest))
    }

    /// The number of pieces.
    pub fn count(&self) -> usize {
        self.table.len()
    }

    /// Whether searches are short enough to be made by the thousand.
    pub fn is_small(&self) -> bool {
        self.pixels.len() <= 600 && self.count() <= 16
    }

    /// The job with nothing beyond what it needs.
    fn lent(&self) -> Lent<'_> {
        Lent {
            rows: self.job.rows,
            columns: self.job.columns,
            count: self.count(),
            gap: self.job.gap,
            table: &self.table,
            pixels: &self.pixels,
        }
    }

    /// Any piece.
    fn piece(&self, random: &mut Random) -> usize {
        random.between(0, self.count() - 1)
    }

    /// Any allowed turn of a piece.
    fn turn(&self, random: &mut Random, piece: usize) -> Turn {
        let turns: Vec<Turn> = self.job.pieces[piece].turns().collect();
        random.pick(&turns)
    }

    /// A turn and a corner at which a piece is inside, mostly within a part of the sheet so that pieces meet.
    fn place(&self, random: &mut Random, piece: usize, part: usize) -> [u16; 3] {
        let shape = &self.job.pieces[piece].shape;
        let mut turn = self.turn(random, piece);
        let [columns, rows] = shape.turned_box(turn);
        if columns > self.job.columns || rows > self.job.rows {
            turn = Turn::ALL[0];
        }
        let [columns, rows] = shape.turned_box(turn);
        let x = random.between(0, (self.job.columns - columns) / part);
        let y = random.between(0, (self.job.rows - rows) / part);
        [turn.degrees(), x, y].map(|number| number as u16)
    }

    /// A layout that is inside in allowed turns.
    fn layout(&self, random: &mut Random) -> Vec<[u16; 3]> {
        let part = random.pick(&[1, 2, 4, 100]);
        if random.chance(25) {
            let start = layout::own_start(&self.job);
            return start
                .iter()
                .map(|place| [0, place.x as u16, place.y as u16])
                .collect();
        }
        (0..self.count())
            .map(|piece| self.place(random, piece, part))
            .collect()
    }

    /// A layout that a start is given: inside in allowed turns for locked pieces, arbitrary for free ones.
    fn locked_layout(&self, random: &mut Random) -> Vec<[u16; 3]> {
        let mut layout = Guarded::junk(random, self.count()).get().to_vec();
        for (number, piece) in self.job.pieces.iter().enumerate() {
            if piece.locked {
                layout[number] = self.place(random, number, 1);
            }
        }
        layout
    }

    /// A layout in which no two pieces conflict, where a short search finds one.
    fn clear_layout(&self, random: &mut Random) -> Vec<[u16; 3]> {
        let mut layout = self.layout(random);
        let mut weights = vec![1; self.job.pair_count()];
        let budget = SHORT_BUDGET as u32;
        calls::guided_run(&self.lent(), &mut layout, &mut weights, 2, budget)
            .expect("the layout is right");
        layout
    }

    /// A layout with free cloth between the pieces, where the sheet has room: each lies at a random place where it conflicts with none of
    /// those before it, the largest first. One that finds no such place lies anywhere.
    pub fn spread_layout(&self, random: &mut Random) -> Vec<[u16; 3]> {
        let (rows, columns) = (self.job.rows, self.job.columns);
        let mut near = vec![false; rows * columns];
        let mut layout = vec![[0; 3]; self.count()];
        let mut order: Vec<usize> = (0..self.count()).collect();
        order.sort_by_key(|&piece| Reverse(self.job.pieces[piece].shape.cells().count()));
        for piece in order {
            let mut tries = TRIES;
            let (shape, [x, y]) = loop {
                layout[piece] = self.place(random, piece, 1);
                let [turn, x, y] = layout[piece].map(usize::from);
                let shape = self.job.pieces[piece].shape.turned(Turn::ALL[turn / 90]);
                let is_near = |(across, up): (usize, usize)| near[(y + up) * columns + x + across];
                tries -= 1;
                if tries == 0 || !shape.pixels().any(is_near) {
                    break (shape, [x, y]);
                }
            };
            // The cells within the gap are counted from a gap before the corner; some of them are outside the sheet.
            for (across, up) in shape.widened(self.job.gap).pixels() {
                let [x, y] = [x + across, y + up].map(|end| end.wrapping_sub(self.job.gap));
                if x < columns && y < rows {
                    near[y * columns + x] = true;
                }
            }
        }
        layout
    }

    /// A layout to be compacted, mostly one that passes the check: spread out, found by a short search, or as a start stacks it.
    fn layout_to_compact(&self, random: &mut Random) -> Vec<[u16; 3]> {
        match random.between(0, 9) {
            0..=4 => self.spread_layout(random),
            5..=7 if self.is_small() => self.clear_layout(random),
            _ => self.layout(random),
        }
    }

    /// Weights of small and of large numbers.
    fn weights(&self, random: &mut Random) -> Vec<u32> {
        let style = random.between(0, 3);
        let mut weight = |_| match style {
            0 => 1,
            1 => random.between(1, 9) as u32,
            2 => random.pick(&[65_533, 65_534, 65_535]),
            _ => random.between(1, 65_535) as u32,
        };
        (0..self.job.pair_count()).map(&mut weight).collect()
    }

    /// A memory that holds what a call accepts, but for causes that hang on the pieces alone. Mostly there is more room for a compaction.
    pub fn memory(&self, random: &mut Random, kind: Kind) -> Memory {
        if kind == Kind::Compact && random.chance(75) {
            return self
                .on_larger_sheet(random)
                .memory_on_its_sheet(random, kind);
        }
        self.memory_on_its_sheet(random, kind)
    }

    /// The same on the job's own sheet.
    pub fn memory_on_its_sheet(&self, random: &mut Random, kind: Kind) -> Memory {
        let mut memory = Memory::new(random);
        memory.numbers.vertical = random.pick(&[0, 0, 0, 1, 1, 2, 128, 255]);
        if kind.is_lent_a_job() {
            memory.rows = self.job.rows;
            memory.columns = self.job.columns;
            memory.count = self.count();
            memory.gap = self.job.gap;
            memory.table = roomy(random, &self.table);
            memory.pixels = roomy(random, &self.pixels);
        }
        match kind {
            Kind::ReadJob => self.fill_text(random, &mut memory),
            Kind::SetLock => self.choose_lock(random, &mut memory),
            Kind::Strips => self.fill_stores(random, &mut memory, false),
            Kind::Stretch | Kind::StretchRefusal => self.fill_stores(random, &mut memory, true),
            Kind::Rebuild => self.fill_box(random, &mut memory),
            Kind::NoFitRow | Kind::NoFitColumn => self.fill_pair(random, &mut memory, kind),
            Kind::WriteLayout | Kind::ReadLayout => self.fill_layout_text(random, &mut memory),
            Kind::Program => {
                memory.text = Guarded::new(&self.text);
                let more = random.between(0, 50);
                memory.output = Guarded::junk(random, OUTPUT + more);
            }
            Kind::CutLines | Kind::CutStep | Kind::LineStep => {
                self.fill_cut(random, &mut memory, kind);
            }
            Kind::Fresh | Kind::Lay | Kind::Withdraw => self.fill_sheet(random, &mut memory),
            _ => self.fill_layout(random, &mut memory, kind),
        }
        memory
    }

    /// The job text, and room for what is read.
    fn fill_text(&self, random: &mut Random, memory: &mut Memory) {
        memory.text = Guarded::new(&self.text);
        let (table, pixels) = (random.between(0, 3), random.between(0, 9));
        memory.table = Guarded::junk(random, self.count() + table);
        memory.pixels = Guarded::junk(random, self.pixels.len() + pixels);
    }

    /// A piece to be locked from the cutter's station.
    pub fn choose_lock(&self, random: &mut Random, memory: &mut Memory) {
        memory.numbers.i = self.piece(random);
        memory.numbers.station = CUTTER;
    }

    /// Turns, and stores of arbitrary or of right content.
    fn fill_stores(&self, random: &mut Random, memory: &mut Memory, filled: bool) {
        let turns: Vec<u16> = (0..self.count())
            .map(|piece| self.turn(random, piece).degrees() as u16)
            .collect();
        let mut rows = (vec![[0; 3]; self.pixels.len()], vec![0; self.count() + 1]);
        let mut columns = rows.clone();
        let stores = [
            (&mut rows.0[..], &mut rows.1[..]),
            (&mut columns.0[..], &mut columns.1[..]),
        ];
        calls::strips(&self.lent(), &turns, stores).expect("turns and buffers are right");
        for (strips, starts) in [&mut rows, &mut columns] {
            strips.truncate(starts[self.count()] as usize);
        }
        memory.turns = Guarded::new(&turns);
        memory.row_strips = roomy(random, &rows.0);
        memory.row_starts = roomy(random, &rows.1);
        memory.column_strips = roomy(random, &columns.0);
        memory.column_starts = roomy(random, &columns.1);
        memory.numbers.i = self.piece(random);
        if !filled {
            memory.row_strips = Guarded::junk(random, memory.row_strips.length());
            memory.row_starts = Guarded::junk(random, memory.row_starts.length());
            memory.column_strips = Guarded::junk(random, memory.column_strips.length());
            memory.column_starts = Guarded::junk(random, memory.column_starts.length());
        }
    }

    /// The strips of a piece in a turn, as a caller takes them from a store.
    fn strips(&self, piece: usize, turn: Turn, vertical: bool) -> Vec<[u8; 3]> {
        let shape = self.job.pieces[piece].shape.turned(turn);
        let shape = if vertical { shape.transposed() } else { shape };
        let entry = |strip: &second::shape::Strip| {
            [strip.y, strip.first, strip.count].map(|number| number as u8)
        };
        shape.row_strips().iter().map(entry).collect()
    }

    /// A box and the strips of a piece in it.
    fn fill_box(&self, random: &mut Random, memory: &mut Memory) {
        let piece = self.piece(random);
        let turn = self.turn(random, piece);
        let [columns, rows] = self.job.pieces[piece].shape.turned_box(turn);
        memory.numbers.box_columns = columns as u16;
        memory.numbers.box_rows = rows as u16;
        let vertical = memory.numbers.vertical != 0;
        memory.row_strips = Guarded::new(&self.strips(piece, turn, vertical));
        let more = random.pick(&[0, 0, 1, 20]);
        memory.output = Guarded::junk(random, columns * rows + more);
    }

    /// The smallest and the largest offset across a no-fit line at which the boxes of two turned pieces come within the gap.
    pub fn meeting_offsets(&self, kind: Kind, pair: [(usize, Turn); 2]) -> [i32; 2] {
        let vertical = kind == Kind::NoFitColumn;
        let [i_across, k_across] = pair.map(|(piece, turn)| {
            let [columns, rows] = self.job.pieces[piece].shape.turned_box(turn);
            (if vertical { columns } else { rows }) as i32
        });
        let gap = self.job.gap as i32;
        [1 - k_across - gap, i_across - 1 + gap]
    }

    /// Two pieces, or one twice, with their strips, and an offset.
    fn fill_pair(&self, random: &mut Random, memory: &mut Memory, kind: Kind) {
        let (i, k) = (self.piece(random), self.piece(random));
        let pair = [(i, self.turn(random, i)), (k, self.turn(random, k))];
        let [smallest, largest] = self.meeting_offsets(kind, pair);
        let near = random.between(0, (largest - smallest + 2) as usize) as i32 + smallest - 1;
        let far = [
            i32::MIN,
            i32::MIN + 1,
            -65_536,
            -263,
            256,
            263,
            65_536,
            i32::MAX,
        ];
        let offset = if random.chance(5) {
            random.pick(&far)
        } else {
            near
        };
        self.choose_line(random, memory, kind, pair, offset);
    }

    /// The no-fit line of two turned pieces at an offset, with as much room as its runs take, or some more.
    pub fn choose_line(
        &self,
        random: &mut Random,
        memory: &mut Memory,
        kind: Kind,
        pair: [(usize, Turn); 2],
        offset: i32,
    ) {
        let vertical = kind == Kind::NoFitColumn;
        let [(i, turn), (k, k_turn)] = pair;
        memory.row_strips = Guarded::new(&self.strips(i, turn, vertical));
        memory.column_strips = Guarded::new(&self.strips(k, k_turn, vertical));
        let numbers = &mut memory.numbers;
        (numbers.i, numbers.k) = (i, k);
        numbers.turn = turn.degrees() as u16;
        numbers.k_turn = k_turn.degrees() as u16;
        numbers.offset = offset;
        memory.runs = Guarded::junk(random, 512);
        let mut after = memory.clone();
        expected::call(kind, &mut after);
        let needed = after.sizes.get()[0];
        let more = random.pick(&[0, 0, 1, 9]);
        memory.runs = Guarded::junk(random, needed + more);
    }

    /// A layout and its text, the text to be read and room for the text to be written.
    fn fill_layout_text(&self, random: &mut Random, memory: &mut Memory) {
        let layout = self.layout(random);
        let mut text = vec![0; OUTPUT];
        let length = calls::write_layout(&self.lent(), &layout, &mut text)
            .expect("the layout is right and the buffer long enough");
        memory.text = Guarded::new(&text[..length]);
        let more = random.pick(&[0, 0, 1, 30]);
        memory.output = Guarded::junk(random, length + more);
        memory.layout = Guarded::new(&layout);
    }

    /// A layout with what the calls about layouts and the searches take beside it.
    fn fill_layout(&self, random: &mut Random, memory: &mut Memory, kind: Kind) {
        let layout = match kind {
            Kind::Start => self.locked_layout(random),
            Kind::Compact => self.layout_to_compact(random),
            Kind::Check if self.is_small() && random.chance(50) => self.clear_layout(random),
            _ => self.layout(random),
        };
        let i = self.piece(random);
        let [turn, x, y] = layout[i];
        memory.layout = Guarded::new(&layout);
        memory.weights = Guarded::new(&self.weights(random));
        let numbers = &mut memory.numbers;
        (numbers.i, numbers.k) = (i, self.piece(random));
        if numbers.i == numbers.k && self.count() > 1 {
            numbers.k = (i + 1) % self.count();
        }
        numbers.turn = turn;
        numbers.held = if numbers.vertical == 0 { y } else { x };
        if random.chance(50) {
            numbers.turn = self.turn(random, i).degrees() as u16;
        }
        if kind == Kind::Preview {
            // Now and then the piece is moved to where it lies.
            let to = [layout[i], self.place(random, i, 1)];
            [numbers.turn, numbers.x, numbers.y] = to[usize::from(random.chance(80))];
        }
        let (budgets, rounds): (&[usize], &[usize]) = if self.is_small() {
            (
                &[0, 1, 2, 7, 30, 1_000, 1_000_000, 1_000_000_000],
                &[1, 2, 5, 20],
            )
        } else {
            (&[0, 1, 30, SHORT_BUDGET], &[1, 2])
        };
        numbers.budget = random.pick(budgets) as u32;
        numbers.rounds = random.pick(rounds) as u32;
        // Many rounds are cheap where each has few trials.
        if self.is_small() && numbers.budget <= 30 && random.chance(10) {
            numbers.rounds = random.pick(&[100, 999, 1_000]);
        }
    }

    /// A layout, mostly one that passes the check, with a pitch, the number of a step, and room for lines, mostly filled with the layout's
    /// own where a call reads them.
    fn fill_cut(&self, random: &mut Random, memory: &mut Memory, kind: Kind) {
        let layout = if self.is_small() && random.chance(80) {
            self.clear_layout(random)
        } else {
            self.layout(random)
        };
        let room = sigbrol::cut_lines_capacity(self.job.rows, self.job.columns);
        let mut lines = vec![[0; 4]; room];
        let count = calls::cut_lines(&self.lent(), &layout, &mut lines).unwrap_or(0);
        memory.layout = Guarded::new(&layout);
        memory.cut_lines = roomy(random, &lines[..count]);
        if kind == Kind::CutLines || random.chance(20) {
            memory.cut_lines = Guarded::junk(random, memory.cut_lines.length());
        }
        let numbers = &mut memory.numbers;
        numbers.pitch = random.pick(&[1, 2, 63, 64, 65, 97, 4_095, 4_096]);
        let steps = 2 * count as u64;
        let within = random.between(0, 2 * count + 1) as u64;
        let far = random.pick(&[steps, 1 << 32, (1 << 32) + 1, 1 << 63, u64::MAX]);
        numbers.step = if random.chance(80) { within } else { far };
    }

    /// A sheet with some pieces laid, and a piece to be laid or withdrawn.
    fn fill_sheet(&self, random: &mut Random, memory: &mut Memory) {
        let (rows, columns) = (self.job.rows, self.job.columns);
        let mut record = [[0; 4]; RECORD];
        let mut counts = vec![0; rows * columns];
        let percent = random.pick(&[0, 30, 60, 100]);
        for (number, piece) in self.job.pieces.iter().enumerate() {
            if !random.chance(percent) {
                continue;
            }
            let [turn, x, y] = self.place(random, number, 1);
            record[number] = [1, turn, x, y];
            let shape = piece.shape.turned(Turn::ALL[usize::from(turn) / 90]);
            let corner = usize::from(y) * columns + usize::from(x);
            for (across, up) in shape.pixels() {
                counts[corner + up * columns + across] += 1;
            }
        }
        memory.record = Guarded::new(&record);
        memory.counts = Guarded::new(&counts);
        self.choose_lay(random, memory);
    }

    /// A piece to be laid or withdrawn, and a place for it.
    pub fn choose_lay(&self, random: &mut Random, memory: &mut Memory) {
        let i = self.piece(random);
        let [turn, x, y] = self.place(random, i, 1);
        let numbers = &mut memory.numbers;
        (numbers.i, numbers.turn, numbers.x, numbers.y) = (i, turn, x, y);
    }
}

/// A buffer that holds the elements, often with arbitrary ones behind them.
fn roomy<T: Cell>(random: &mut Random, content: &[T]) -> Guarded<T> {
    let mut buffer = Guarded::new(content);
    let more = random.pick(&[0, 0, 1, 5]);
    if more > 0 {
        buffer.extend(random, more);
    }
    buffer
}
