//! The cuts of a layout and the formats that they are written in. It knows no core: the program beside it asks the core for the cuts.

pub mod formats;

/// A point in millimetres, x to the right and y upward.
pub type Point = (f64, f64);

/// A straight cut from one point to another.
#[derive(Clone, Copy, Debug, PartialEq)]
pub struct Cut {
    pub from: Point,
    pub to: Point,
}

/// The cuts of a layout, and the sheet's far corner.
#[derive(Clone, Debug, PartialEq)]
pub struct CutList {
    pub sheet: Point,
    pub cuts: Vec<Cut>,
}
