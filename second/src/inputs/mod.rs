//! Generated inputs of fixed seeds for the comparisons with other programs: `jobs` makes jobs that are accepted, `damage` texts that mostly
//! are not, both from `shapes` and `random` numbers.

pub mod damage;
pub mod jobs;
pub mod kind;
pub mod random;
pub mod shapes;
