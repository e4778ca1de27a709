//! Buffers between guards, so that a write beyond a buffer is seen.

use std::fmt::Debug;

use second::inputs::random::Random;

/// Guard elements on each side of a buffer.
const GUARDS: usize = 8;

/// An element of a buffer.
pub trait Cell: Copy + PartialEq + Debug {
    /// The element made of a word's bits.
    fn of_bits(bits: u64) -> Self;

    /// Another element close by; of an element with parts, one part is changed.
    fn next(self, part: usize) -> Self;
}

/// What guards are made of; no call has a reason to write it.
const GUARD_BITS: u64 = 0xa5c3_96f1_5a3c_69e7;

macro_rules! number_cells {
    ($($number:ty),*) => {$(
        impl Cell for $number {
            fn of_bits(bits: u64) -> $number {
                bits as $number
            }

            fn next(self, _: usize) -> $number {
                self.wrapping_add(1)
            }
        }
    )*};
}
number_cells!(u8, u16, u32, i32, u64, usize);

impl<T: Cell, const N: usize> Cell for [T; N] {
    fn of_bits(bits: u64) -> [T; N] {
        std::array::from_fn(|place| T::of_bits(bits >> (13 * place)))
    }

    fn next(mut self, part: usize) -> [T; N] {
        self[part % N] = self[part % N].next(part);
        self
    }
}

/// A buffer with guards around it.
#[derive(Clone, PartialEq, Debug)]
pub struct Guarded<T> {
    cells: Vec<T>,
}

impl<T: Cell> Guarded<T> {
    /// A buffer that holds the given elements.
    pub fn new(content: &[T]) -> Guarded<T> {
        let mut cells = Vec::with_capacity(content.len() + 2 * GUARDS);
        cells.resize(GUARDS, T::of_bits(GUARD_BITS));
        cells.extend_from_slice(content);
        cells.resize(content.len() + 2 * GUARDS, T::of_bits(GUARD_BITS));
        Guarded { cells }
    }

    /// A buffer of arbitrary elements.
    pub fn junk(random: &mut Random, length: usize) -> Guarded<T> {
        let content: Vec<T> = (0..length).map(|_| T::of_bits(random.bits())).collect();
        Guarded::new(&content)
    }

    /// The elements.
    pub fn get(&self) -> &[T] {
        &self.cells[GUARDS..self.cells.len() - GUARDS]
    }

    /// The elements, to be written.
    pub fn get_mut(&mut self) -> &mut [T] {
        let end = self.cells.len() - GUARDS;
        &mut self.cells[GUARDS..end]
    }

    /// The number of elements.
    pub fn length(&self) -> usize {
        self.get().len()
    }

    /// Makes the buffer shorter.
    pub fn cut(&mut self, length: usize) {
        *self = Guarded::new(&self.get()[..length]);
    }

    /// Makes the buffer longer by arbitrary elements.
    pub fn extend(&mut self, random: &mut Random, more: usize) {
        let mut content = self.get().to_vec();
        content.extend((0..more).map(|_| T::of_bits(random.bits())));
        *self = Guarded::new(&content);
    }

    /// Takes the elements of another buffer of the same length; the guards stay.
    pub fn take(&mut self, other: &Guarded<T>) {
        self.get_mut().copy_from_slice(other.get());
    }

    /// In words, the first element that is not as in this buffer.
    pub fn difference(&self, found: &Guarded<T>) -> Option<String> {
        let mut pairs = self.cells.iter().zip(&found.cells);
        let place = pairs.position(|(expected, found)| expected != found)?;
        let (expected, found) = (self.cells[place], found.cells[place]);
        let index = place as isize - GUARDS as isize;
        let whose = if place < GUARDS || place >= self.cells.len() - GUARDS {
            ", outside the buffer"
        } else {
            ""
        };
        Some(format!(
            "[{index}]{whose}: expected {expected:?}, found {found:?}"
        ))
    }
}

#[cfg(test)]
mod tests {
    use super::*;

    #[test]
    fn a_write_inside_or_outside_is_seen() {
        let buffer: Guarded<u16> = Guarded::new(&[1, 2, 3]);
        assert_eq!(buffer.difference(&buffer.clone()), None);
        for place in 0..3 + 2 * GUARDS {
            let mut found = buffer.clone();
            found.cells[place] ^= 256;
            let text = buffer.difference(&found).expect("a difference");
            let outside = !(GUARDS..GUARDS + 3).contains(&place);
            assert_eq!(text.contains("outside"), outside, "{text}");
        }
    }

    #[test]
    fn lengths_change_and_content_stays() {
        let mut random = Random::new(1);
        let mut buffer: Guarded<[u8; 3]> = Guarded::new(&[[1, 2, 3], [4, 5, 6]]);
        buffer.extend(&mut random, 5);
        assert_eq!(buffer.length(), 7);
        buffer.cut(1);
        assert_eq!(buffer.get(), [[1, 2, 3]]);
    }
}
