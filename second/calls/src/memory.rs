//! Everything that a call may be lent. A call uses some of it; all of it is compared.

use second::calls::{Lent, Stretch, TableEntry, RECORD};
use second::inputs::random::Random;
use second::job::LOCKED;

use crate::guarded::Guarded;

/// The numbers that calls take by value.
#[derive(Clone, Copy, Debug, Default, PartialEq)]
pub struct Numbers {
    /// The piece of a call, or the first of a pair.
    pub i: usize,
    pub k: usize,
    /// The turn of a call, or of the first piece of a pair.
    pub turn: u16,
    pub k_turn: u16,
    pub vertical: u8,
    pub offset: i32,
    pub held: u16,
    pub x: u16,
    pub y: u16,
    pub budget: u32,
    pub rounds: u32,
    /// The pitch and the number of a step.
    pub pitch: u32,
    pub step: u64,
    /// The station that asks for a lock.
    pub station: usize,
    /// The box of a rebuilding.
    pub box_columns: u16,
    pub box_rows: u16,
}

/// The caller's memory.
#[derive(Clone, Debug, PartialEq)]
pub struct Memory {
    pub rows: usize,
    pub columns: usize,
    pub count: usize,
    pub gap: usize,
    pub numbers: Numbers,
    pub table: Guarded<TableEntry>,
    pub pixels: Guarded<u8>,
    pub turns: Guarded<u16>,
    /// The row store; the strips of a rebuilding; those of the first piece of a pair.
    pub row_strips: Guarded<[u8; 3]>,
    pub row_starts: Guarded<u32>,
    /// The column store; the strips of the second piece of a pair.
    pub column_strips: Guarded<[u8; 3]>,
    pub column_starts: Guarded<u32>,
    pub layout: Guarded<[u16; 3]>,
    pub weights: Guarded<u32>,
    /// A text that is read.
    pub text: Guarded<u8>,
    /// A text, or rebuilt pixels, that are written.
    pub output: Guarded<u8>,
    pub runs: Guarded<[i32; 2]>,
    /// Lines of a cut list: direction, pixel line, first, last.
    pub cut_lines: Guarded<[u16; 4]>,
    pub record: Guarded<[u16; 4]>,
    pub counts: Guarded<u8>,
    /// Words that a run is lent to work in; what they hold after it is free.
    pub workspace: Guarded<u64>,
    /// Results by their width, each with an element between it and the next.
    pub bytes: Guarded<u8>,
    pub halves: Guarded<u32>,
    pub words: Guarded<u64>,
    /// The bits of numbers with a fraction.
    pub doubles: Guarded<u64>,
    pub sizes: Guarded<usize>,
}

/// The place of a result among those of its width.
pub fn result(number: usize) -> usize {
    2 * number
}

macro_rules! first_difference {
    ($self:ident, $found:ident, $($field:ident),*) => {
        None$(.or_else(|| {
            let difference = $self.$field.difference(&$found.$field)?;
            Some(format!("{}{difference}", stringify!($field)))
        }))*
    };
}

impl Memory {
    /// Empty buffers, a record and results of arbitrary content.
    pub fn new(random: &mut Random) -> Memory {
        Memory {
            rows: 0,
            columns: 0,
            count: 0,
            gap: 0,
            numbers: Numbers::default(),
            table: Guarded::new(&[]),
            pixels: Guarded::new(&[]),
            turns: Guarded::new(&[]),
            row_strips: Guarded::new(&[]),
            row_starts: Guarded::new(&[]),
            column_strips: Guarded::new(&[]),
            column_starts: Guarded::new(&[]),
            layout: Guarded::new(&[]),
            weights: Guarded::new(&[]),
            text: Guarded::new(&[]),
            output: Guarded::new(&[]),
            runs: Guarded::new(&[]),
            cut_lines: Guarded::new(&[]),
            record: Guarded::junk(random, RECORD),
            counts: Guarded::new(&[]),
            workspace: Guarded::new(&[]),
            bytes: Guarded::junk(random, 2),
            halves: Guarded::junk(random, 4),
            words: Guarded::junk(random, 6),
            doubles: Guarded::junk(random, 4),
            sizes: Guarded::junk(random, 8),
        }
    }

    /// The job as the second program is lent it.
    pub fn job(&self) -> Lent<'_> {
        Lent {
            rows: self.rows,
            columns: self.columns,
            count: self.count,
            gap: self.gap,
            table: self.table.get(),
            pixels: self.pixels.get(),
        }
    }

    /// For each piece whether it is locked.
    pub fn locks(&self) -> impl Iterator<Item = bool> + '_ {
        let count = self.count.min(self.table.length());
        let entries = self.table.get()[..count].iter();
        entries.map(|entry| usize::from(entry[3]) == LOCKED)
    }

    /// The pair of a no-fit line as the second program is lent it.
    pub fn pair(&self) -> [Stretch<'_>; 2] {
        let numbers = &self.numbers;
        let first = Stretch {
            piece: numbers.i,
            turn: numbers.turn,
            strips: self.row_strips.get(),
        };
        let second = Stretch {
            piece: numbers.k,
            turn: numbers.k_turn,
            strips: self.column_strips.get(),
        };
        [first, second]
    }

    /// In words, the first element of a buffer that is not as here.
    pub fn difference(&self, found: &Memory) -> Option<String> {
        first_difference!(
            self,
            found,
            table,
            pixels,
            turns,
            row_strips,
            row_starts,
            column_strips,
            column_starts,
            layout,
            weights,
            text,
            output,
            runs,
            cut_lines,
            record,
            counts,
            workspace,
            bytes,
            halves,
            words,
            doubles,
            sizes
        )
    }

    /// How large the input is; of several differences the one with the smallest input is the most useful.
    pub fn size(&self) -> usize {
        self.table.length()
            + self.pixels.length()
            + self.layout.length()
            + self.text.length()
            + self.cut_lines.length()
            + self.counts.length()
    }
}
