//! A kind of inputs: a name and the inputs made under it.

use super::random::Random;

/// Inputs of one kind under the name that the summary prints.
pub struct Kind {
    pub name: &'static str,
    pub inputs: Vec<Vec<u8>>,
}

impl Kind {
    /// The inputs of a list.
    pub fn listed(name: &'static str, inputs: Vec<Vec<u8>>) -> Kind {
        Kind { name, inputs }
    }

    /// A number of inputs from one maker.
    pub fn new(name: &'static str, count: usize, make: impl Fn(&mut Random) -> Vec<u8>) -> Kind {
        let mut random = Random::new(seed(name));
        let inputs = (0..count).map(|_| make(&mut random)).collect();
        Kind { name, inputs }
    }
}

/// The seed of a kind. It comes from the name alone, so that a new kind leaves the others as they are.
pub fn seed(name: &str) -> u64 {
    name.bytes().fold(0, |seed: u64, byte| {
        seed.wrapping_mul(257) + u64::from(byte)
    })
}
