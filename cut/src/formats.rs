//! The three formats that cutting tables take. A coordinate is a multiple of 1/64 mm below 2^19, so that every sum and product below is
//! exact, and is written with all its digits.

use std::fmt::Write;

use crate::{Cut, CutList};

/// The file endings of the formats and how each is written.
pub const ALL: [(&str, fn(&CutList) -> String); 3] = [("svg", svg), ("dxf", dxf), ("plt", hpgl)];

/// A text with one part a cut.
fn each_cut(list: &CutList, write: impl Fn(&Cut) -> String) -> String {
    list.cuts.iter().map(write).collect()
}

/// SVG in millimetres. Its y goes downward, so that a point is told by its distance from the sheet's top.
pub fn svg(list: &CutList) -> String {
    let (width, height) = list.sheet;
    let path = each_cut(list, |cut| {
        let ((x, y), (to_x, to_y)) = (cut.from, cut.to);
        format!("M{x} {}L{to_x} {}\n", height - y, height - to_y)
    });
    format!(
        "<svg xmlns=\"http://www.w3.org/2000/svg\" width=\"{width}mm\" height=\"{height}mm\" viewBox=\"0 0 {width} {height}\">\n\
         <path fill=\"none\" stroke=\"#000000\" stroke-width=\"0.1\" d=\"\n{path}\"/>\n</svg>\n"
    )
}

/// DXF of release 12: a LINE a cut on layer CUT, in millimetres.
pub fn dxf(list: &CutList) -> String {
    // A pair is a line with its group code and a line with its value.
    let pairs = |pairs: &[(u32, String)]| {
        let mut text = String::new();
        for (code, value) in pairs {
            writeln!(text, "{code}\n{value}").expect("writing to a string succeeds");
        }
        text
    };
    let words = |words: &[(u32, &str)]| {
        let words: Vec<(u32, String)> = words
            .iter()
            .map(|&(code, word)| (code, word.to_string()))
            .collect();
        pairs(&words)
    };
    let head = words(&[
        (0, "SECTION"),
        (2, "HEADER"),
        (9, "$ACADVER"),
        (1, "AC1009"),
        (0, "ENDSEC"),
        (0, "SECTION"),
        (2, "ENTITIES"),
    ]);
    let lines = each_cut(list, |cut| {
        let ((x, y), (to_x, to_y)) = (cut.from, cut.to);
        let ends = [(10, x), (20, y), (11, to_x), (21, to_y)];
        words(&[(0, "LINE"), (8, "CUT")])
            + &pairs(&ends.map(|(code, number)| (code, number.to_string())))
    });
    head + &lines + &words(&[(0, "ENDSEC"), (0, "EOF")])
}

/// Plotter units of HPGL in a millimetre.
const UNITS: f64 = 40.0;

/// HPGL: pen up to a cut's begin, pen down to its end, in plotter units of 1/40 mm.
///
/// Fractions of a unit are written, so that the file has the core's numbers and rounds none. A controller that takes whole numbers alone
/// gets them by a pitch that is a multiple of 8. Finer units by a scaling command would be whole always, but a controller that passes over
/// the command would cut everything too large.
pub fn hpgl(list: &CutList) -> String {
    let cuts = each_cut(list, |cut| {
        let [x, y, to_x, to_y] = [cut.from.0, cut.from.1, cut.to.0, cut.to.1].map(|mm| mm * UNITS);
        format!("PU{x},{y};PD{to_x},{to_y};\n")
    });
    format!("IN;SP1;\n{cuts}PU;SP0;\n")
}
