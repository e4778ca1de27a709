//! The picture of a layout.

use second::cut::CutLine;

use crate::colour::colours;
use crate::grid::Grid;
use crate::label::largest_square;
use crate::layout::{Layout, Placed};
use crate::outline::outlines;

/// Free space left of the sheet, for the numbers of rows.
const LEFT: usize = 44;

/// Free space right of the sheet.
const RIGHT: usize = 24;

/// Free space above the sheet, for the used length.
const TOP: usize = 34;

/// Free space below the sheet, for the numbers of columns and the caption.
const BOTTOM: usize = 56;

/// The least width of the picture, so that the caption has room.
const LEAST_WIDTH: usize = 540;

/// The hatching of pixels in conflict.
const HATCHING: &str = r##"<defs>
<pattern id="shared" width="6" height="6" patternUnits="userSpaceOnUse" patternTransform="rotate(45)">
<rect width="6" height="6" fill="#ffffff" fill-opacity="0.6"/>
<rect width="3" height="6" fill="#d80000"/>
</pattern>
</defs>
"##;

/// The SVG text of a layout, with the lines to cut or without.
pub fn draw(layout: &Layout, cut: bool) -> String {
    let shown = if cut { Shown::Cut } else { Shown::Alone };
    let picture = Picture::new(layout, shown);
    whole(&picture.caption(), picture.size(), picture.drawn())
}

/// The SVG text of a layout without conflicts and, below it, of what its compaction makes of it.
pub fn draw_compaction(before: &Layout) -> String {
    let (after, slid) = before.compacted();
    let before = Picture::new(before, Shown::Before);
    let after = Picture::new(&after, Shown::After(slid));
    // Both sheets have the same size.
    let [width, height] = before.size();
    let drawn = format!(
        "{}<g transform=\"translate(0 {height})\">\n{}</g>\n",
        before.drawn(),
        after.drawn()
    );
    let caption = format!("{}; {}", before.caption(), after.caption());
    whole(&caption, [width, 2 * height], drawn)
}

/// The SVG text of what is drawn, of a size and with a title.
fn whole(title: &str, [width, height]: [usize; 2], drawn: String) -> String {
    [
        format!(
            "<svg xmlns=\"http://www.w3.org/2000/svg\" width=\"{width}\" height=\"{height}\" \
             viewBox=\"0 0 {width} {height}\" font-family=\"sans-serif\">\n"
        ),
        format!("<title>{title}</title>\n"),
        HATCHING.to_string(),
        format!("<rect width=\"{width}\" height=\"{height}\" fill=\"#ffffff\"/>\n"),
        drawn,
        "</svg>\n".to_string(),
    ]
    .concat()
}

/// What a layout is shown as.
#[derive(Clone, Copy, PartialEq, Eq)]
enum Shown {
    /// As it is.
    Alone,
    /// With the lines to cut.
    Cut,
    /// As it is before its compaction.
    Before,
    /// As a compaction leaves it that slid so many pixels.
    After(u64),
}

/// A layout and what is needed to draw it.
struct Picture<'a> {
    layout: &'a Layout,
    /// The pixels in conflict.
    conflicts: Grid,
    /// The side of a pixel in the picture.
    scale: usize,
    shown: Shown,
}

impl Picture<'_> {
    /// Chooses a size that fills a usual screen and in which every pixel can be seen.
    fn new(layout: &Layout, shown: Shown) -> Picture<'_> {
        let scale = (1200 / layout.columns).min(900 / layout.rows);
        Picture {
            layout,
            conflicts: layout.conflicts(),
            scale: scale.clamp(2, 96),
            shown,
        }
    }

    /// Width and height of the picture.
    fn size(&self) -> [usize; 2] {
        let width = LEAST_WIDTH.max(self.x(self.layout.columns) + RIGHT);
        [width, self.y(0) + BOTTOM]
    }

    /// Everything that is drawn; what comes later lies in front.
    fn drawn(&self) -> String {
        let [_, height] = self.size();
        [
            self.sheet(),
            self.pieces(),
            self.frames(),
            self.bands(),
            self.conflicting_pixels(),
            self.piece_numbers(),
            self.used_length(),
            self.cut_lines(),
            self.caption_text(height - 14),
        ]
        .concat()
    }

    /// The picture's x of a column's left side.
    fn x(&self, column: usize) -> usize {
        LEFT + column * self.scale
    }

    /// The picture's y of a row's lower side: rows are counted upward, the picture's y downward.
    fn y(&self, row: usize) -> usize {
        TOP + (self.layout.rows - row) * self.scale
    }

    /// What the picture shows, in words.
    fn caption(&self) -> String {
        let (before, behind) = match self.shown {
            Shown::Alone => ("", String::new()),
            Shown::Cut => {
                let lines = counted(self.layout.cut_lines.len(), "line");
                ("", format!(", {lines} to cut"))
            }
            Shown::Before => ("before: ", String::new()),
            Shown::After(slid) => {
                let pixels = counted(slid as usize, "pixel");
                ("after: ", format!(", {pixels} slid"))
            }
        };
        let locked = match self.locked().count() {
            0 => String::new(),
            locked => format!(", {locked} locked"),
        };
        format!(
            "{before}{}{locked}, {} by {}, used length {}, {}{behind}",
            counted(self.layout.pieces.len(), "piece"),
            counted(self.layout.rows, "row"),
            counted(self.layout.columns, "column"),
            self.layout.used_columns.len(),
            self.conflicts_in_words(),
        )
    }

    /// The locked pieces and their numbers.
    fn locked(&self) -> impl Iterator<Item = (usize, &Placed)> {
        let pieces = self.layout.pieces.iter().enumerate();
        pieces.filter(|(_, piece)| piece.locked)
    }

    /// The gap, where there is one, and how many pixels are in conflict.
    fn conflicts_in_words(&self) -> String {
        let pixels = self.conflicts.count();
        match self.layout.gap {
            0 => counted(pixels, "shared pixel"),
            gap => format!("gap {gap}, {} in conflict", counted(pixels, "pixel")),
        }
    }

    /// The caption as a line of the picture.
    fn caption_text(&self, y: usize) -> String {
        let caption = self.caption();
        format!("<text x=\"{LEFT}\" y=\"{y}\" font-size=\"13\" fill=\"#333333\">{caption}</text>\n")
    }

    /// The sheet and the numbers of columns and rows along its sides.
    fn sheet(&self) -> String {
        let (rows, columns) = (self.layout.rows, self.layout.columns);
        let (left, right, top, bottom) = (self.x(0), self.x(columns), self.y(rows), self.y(0));
        let (width, height) = (right - left, bottom - top);
        let column_number = |column: usize| {
            let (x, y) = (self.x(column), bottom + 18);
            format!("<text x=\"{x}\" y=\"{y}\" text-anchor=\"middle\">{column}</text>\n")
        };
        let row_number = |row: usize| {
            let (x, y) = (left - 8, self.y(row) + 4);
            format!("<text x=\"{x}\" y=\"{y}\" text-anchor=\"end\">{row}</text>\n")
        };
        let tick_x = |column: usize| format!("M{} {bottom}v5", self.x(column));
        let tick_y = |row: usize| format!("M{left} {}h-5", self.y(row));
        let columns: Vec<usize> = (0..=columns).step_by(self.tick_step(40)).collect();
        let rows: Vec<usize> = (0..=rows).step_by(self.tick_step(24)).collect();
        [
            format!("<rect x=\"{left}\" y=\"{top}\" width=\"{width}\" height=\"{height}\" "),
            "fill=\"#f6f5f1\" stroke=\"#333333\" stroke-width=\"1.5\"/>\n".to_string(),
            "<g font-size=\"11\" fill=\"#555555\">\n".to_string(),
            columns.iter().copied().map(column_number).collect(),
            rows.iter().copied().map(row_number).collect(),
            "</g>\n<path stroke=\"#333333\" d=\"".to_string(),
            columns.iter().copied().map(tick_x).collect(),
            rows.iter().copied().map(tick_y).collect(),
            "\"/>\n".to_string(),
        ]
        .concat()
    }

    /// The least of 1, 2, 5, 10 and so on whose ticks are a number of units apart.
    fn tick_step(&self, apart: usize) -> usize {
        let steps = (0..).flat_map(|power| [1, 2, 5].map(|first| first * 10_usize.pow(power)));
        let mut wide = steps.filter(|step| step * self.scale >= apart);
        wide.next().unwrap_or(1)
    }

    /// The pieces, each a single path in its colours.
    fn pieces(&self) -> String {
        let piece = |(number, piece): (usize, &Placed)| {
            let colours = colours(number);
            let locked = if piece.locked { ", locked" } else { "" };
            format!(
                "<path fill=\"{}\" stroke=\"{}\" d=\"{}\"><title>piece {number}, turn {}, corner ({}, {}){locked}</title></path>\n",
                colours.fill,
                colours.outline,
                self.path(&piece.grid, piece.x, piece.y),
                piece.degrees,
                piece.x,
                piece.y,
            )
        };
        let pieces: String = self.layout.pieces.iter().enumerate().map(piece).collect();
        format!("<g fill-rule=\"evenodd\" fill-opacity=\"0.85\" stroke-linejoin=\"round\">\n{pieces}</g>\n")
    }

    /// A dark frame along the inner side of each locked piece's outline.
    fn frames(&self) -> String {
        // Half of the line's width lies outside the piece, where it is cut off.
        let width = self.scale.clamp(4, 12);
        let name = match self.shown {
            Shown::After(_) => "still-locked",
            _ => "locked",
        };
        let frame = |(number, piece): (usize, &Placed)| {
            let path = self.path(&piece.grid, piece.x, piece.y);
            format!(
                "<clipPath id=\"{name}{number}\"><path clip-rule=\"evenodd\" d=\"{path}\"/></clipPath>\n\
                 <path clip-path=\"url(#{name}{number})\" fill=\"none\" stroke=\"#222222\" stroke-width=\"{width}\" d=\"{path}\"/>\n"
            )
        };
        self.locked().map(frame).collect()
    }

    /// Where there is a gap, a thin line around the pixels at most the gap from each piece: no pixel of another may lie within.
    fn bands(&self) -> String {
        if self.layout.gap == 0 {
            return String::new();
        }
        let band = |(number, piece): (usize, &Placed)| {
            let path = self.path(&self.layout.band(piece), 0, 0);
            let colour = colours(number).outline;
            format!("<path stroke=\"{colour}\" d=\"{path}\"/>\n")
        };
        let bands: String = self.layout.pieces.iter().enumerate().map(band).collect();
        format!("<g fill=\"none\" stroke-width=\"0.7\" stroke-dasharray=\"4 3\">\n{bands}</g>\n")
    }

    /// The pixels in conflict, hatched.
    fn conflicting_pixels(&self) -> String {
        let path = self.path(&self.conflicts, 0, 0);
        if path.is_empty() {
            return path;
        }
        format!(
            "<path fill=\"url(#shared)\" fill-rule=\"evenodd\" stroke=\"#d80000\" d=\"{path}\"/>\n"
        )
    }

    /// The outline of a pixel set whose box has its corner at a column and row.
    fn path(&self, grid: &Grid, column: usize, row: usize) -> String {
        let line = |corners: Vec<(usize, usize)>| {
            let (x, y) = corners[0];
            let mut path = format!("M{} {}", self.x(column + x), self.y(row + y));
            for (from, to) in corners.iter().zip(&corners[1..]) {
                path += &self.segment(*from, *to);
            }
            path + "z"
        };
        outlines(grid).into_iter().map(line).collect()
    }

    /// A straight part of a path, along a row or a column.
    fn segment(&self, from: (usize, usize), to: (usize, usize)) -> String {
        let length = |from: usize, to: usize| (to as isize - from as isize) * self.scale as isize;
        if from.1 == to.1 {
            format!("h{}", length(from.0, to.0))
        } else {
            format!("v{}", length(to.1, from.1))
        }
    }

    /// The numbers of the pieces.
    fn piece_numbers(&self) -> String {
        let numbers: String = (0..self.layout.pieces.len())
            .map(|number| self.piece_number(number))
            .collect();
        format!(
            "<g text-anchor=\"middle\" fill=\"#111111\" stroke=\"#ffffff\" stroke-opacity=\"0.8\" \
             paint-order=\"stroke\">\n{numbers}</g>\n"
        )
    }

    /// The number of a piece, where the piece is widest, on pixels of its own if it has any.
    fn piece_number(&self, number: usize) -> String {
        let piece = &self.layout.pieces[number];
        let own = Grid::new(piece.grid.columns, piece.grid.rows, |x, y| {
            piece.grid.has(x, y) && !self.conflicts.has(piece.x + x, piece.y + y)
        });
        let square = largest_square(&own).or_else(|| largest_square(&piece.grid));
        let Some(square) = square else {
            return String::new();
        };
        let side = square.side * self.scale;
        let size = (side * 6 / 10).clamp(10, 26);
        let (x, y) = (
            self.x(piece.x + square.x) + side / 2,
            self.y(piece.y + square.y) - side / 2,
        );
        format!(
            "<text x=\"{x}\" y=\"{}\" font-size=\"{size}\" stroke-width=\"{}\">{number}</text>\n",
            // Digits are some seven tenths as high as their size says.
            y + size * 36 / 100,
            size.div_ceil(8),
        )
    }

    /// The lines to cut, in red, which is free where no pixel is in conflict: a bar where the knife is let down, an arrow where it is lifted.
    fn cut_lines(&self) -> String {
        if self.shown != Shown::Cut {
            return String::new();
        }
        let lines = self.layout.cut_lines.iter();
        let path: String = lines.map(|line| self.cut_line(line)).collect();
        format!("<path fill=\"none\" stroke=\"#d80000\" stroke-width=\"2\" d=\"{path}\"/>\n")
    }

    /// A line to cut. It is drawn a little short at both ends, so that lines which meet there can be told from lines that cross.
    fn cut_line(&self, line: &CutLine) -> String {
        let (short, mark) = (self.scale / 8, (self.scale / 8).clamp(1, 6));
        let length = (line.last - line.first) * self.scale - 2 * short;
        if line.vertical {
            let (x, y) = (self.x(line.line), self.y(line.first) - short);
            let (left, right, back) = (x - mark, x + mark, y - length + mark);
            format!(
                "M{left} {y}H{right}M{x} {y}v-{length}M{left} {back}l{mark} -{mark}l{mark} {mark}"
            )
        } else {
            let (x, y) = (self.x(line.first) + short, self.y(line.line));
            let (top, bottom, back) = (y - mark, y + mark, x + length - mark);
            format!(
                "M{x} {top}V{bottom}M{x} {y}h{length}M{back} {top}l{mark} {mark}l-{mark} {mark}"
            )
        }
    }

    /// The used length: a line across the sheet at either end, one between them above the sheet, and the number on it.
    fn used_length(&self) -> String {
        let used = &self.layout.used_columns;
        let (left, right) = (self.x(used.start), self.x(used.end));
        let (top, bottom) = (TOP - 10, self.y(0) + 5);
        // The words reach into the side of the picture that has more room.
        let (anchor, words_x) = if used.start + used.end > self.layout.columns {
            ("end", right + 4)
        } else {
            ("start", left - 4)
        };
        format!(
            "<path stroke=\"#0050c8\" stroke-width=\"2\" stroke-dasharray=\"7 4\" fill=\"none\" \
             d=\"M{left} {bottom}V{top}H{right}V{bottom}\"/>\n\
             <text x=\"{words_x}\" y=\"{}\" text-anchor=\"{anchor}\" font-size=\"13\" \
             fill=\"#0050c8\">used length {}</text>\n",
            top - 5,
            used.len(),
        )
    }
}

/// A number and a noun, with an s unless the number is 1.
fn counted(number: usize, noun: &str) -> String {
    let ending = if number == 1 { "" } else { "s" };
    format!("{number} {noun}{ending}")
}

#[cfg(test)]
mod tests {
    use super::*;
    use crate::layout;

    /// The picture of a corner piece and a square on a sheet of 10 rows and 12 columns, scale 90.
    fn picture(places: &str) -> String {
        draw(&laid(places), false)
    }

    /// The layout of these pieces without a gap.
    fn laid(places: &str) -> Layout {
        laid_with("job,1,10,12,2", places)
    }

    /// Their layout by a first line of the job.
    fn laid_with(line: &str, places: &str) -> Layout {
        let pieces = "piece,0,2,2,15\nrow,##\nrow,#.\npiece,1,2,2,1\nrow,##\nrow,##\n";
        let (job, text) = (
            format!("{line}\n{pieces}"),
            format!("layout,1,10,12,2\n{places}"),
        );
        layout::read(job.as_bytes(), text.as_bytes()).expect("job and layout are right")
    }

    #[test]
    fn rows_are_counted_upward() {
        // The corner piece lies in the bottom left of the sheet; its notch is at the top right.
        let text = picture("at,0,0,0,0\nat,1,0,8,8\n");
        assert!(
            text.contains("d=\"M44 934h180v-90h-90v-90h-90z\""),
            "{text}"
        );
        // Turned by 90 degrees, its notch is at the top left.
        let text = picture("at,0,90,0,0\nat,1,0,8,8\n");
        assert!(
            text.contains("d=\"M44 934h180v-180h-90v90h-90z\""),
            "{text}"
        );
    }

    #[test]
    fn shared_pixels_are_hatched_only_where_there_are_any() {
        let apart = picture("at,0,0,0,0\nat,1,0,2,0\n");
        assert!(!apart.contains("url(#shared)") && apart.contains("0 shared pixels</title>"));
        let meeting = picture("at,0,0,0,0\nat,1,0,1,0\n");
        assert!(meeting.contains("url(#shared)") && meeting.contains("1 shared pixel</title>"));
        assert!(meeting.contains("d=\"M134 934h90v-90h-90z\""));
    }

    #[test]
    fn the_gap_is_shown_and_what_lies_within_it_is_hatched() {
        let places = "at,0,0,0,0\nat,1,0,3,0\n";
        let draw_with = |line: &str| draw(&laid_with(line, places), false);
        assert_eq!(draw_with("job,2,10,12,2,0"), draw(&laid(places), false));
        // A free column lies between the two: enough for a gap of 1.
        let kept = draw_with("job,2,10,12,2,1");
        assert!(kept.contains(", gap 1, 0 pixels in conflict</title>") && !kept.contains("url(#"));
        // The band of the corner piece ends at the sheet's edge; that of the square has all its corners.
        assert!(
            kept.contains(" d=\"M44 934h270v-180h-90v-90h-180z\"/>"),
            "{kept}"
        );
        assert!(kept.contains(" d=\"M224 934h360v-270h-360z\"/>"), "{kept}");
        // With a gap of 2 the lower right pixel of the corner piece and the left column of the square are too near.
        let missed = draw_with("job,2,10,12,2,2");
        assert!(
            missed.contains(", gap 2, 3 pixels in conflict</title>"),
            "{missed}"
        );
        assert!(missed.contains("url(#shared)"));
        assert_eq!(missed.matches("stroke-dasharray=\"4 3\"").count(), 1);
    }

    #[test]
    fn locked_pieces_have_a_dark_frame() {
        let pieces = |first: u8, second: u8| {
            let corner = format!("piece,0,2,2,15,{first}\nrow,##\nrow,#.\n");
            format!("{corner}piece,1,2,2,1,{second}\nrow,##\nrow,##\n")
        };
        let draw_with = |first: u8, second: u8| {
            let job = format!("job,3,10,12,2,0\n{}", pieces(first, second));
            let text = "layout,1,10,12,2\nat,0,0,0,0\nat,1,0,3,0\n";
            let layout = layout::read(job.as_bytes(), text.as_bytes());
            draw(&layout.expect("job and layout are right"), false)
        };
        let free = picture("at,0,0,0,0\nat,1,0,3,0\n");
        assert_eq!(draw_with(0, 0), free);
        assert!(!free.contains("locked"));
        let one = draw_with(0, 1);
        assert!(one.contains("<title>2 pieces, 1 locked, 10 rows by 12 columns, used length 5, "));
        assert!(one.contains("<title>piece 0, turn 0, corner (0, 0)</title>"));
        assert!(one.contains("<title>piece 1, turn 0, corner (3, 0), locked</title>"));
        // The frame goes along the square's outline, and no further than the square.
        let square = "d=\"M314 934h180v-180h-180z\"/>";
        let clip =
            format!("<clipPath id=\"locked1\"><path clip-rule=\"evenodd\" {square}</clipPath>");
        assert!(one.contains(&clip), "{one}");
        let frame = format!(
            "<path clip-path=\"url(#locked1)\" fill=\"none\" stroke=\"#222222\" stroke-width=\"12\" {square}"
        );
        assert!(one.contains(&frame), "{one}");
        assert!(draw_with(1, 1).contains("2 pieces, 2 locked, "));
        assert_eq!(draw_with(1, 1).matches("<clipPath ").count(), 2);
    }

    #[test]
    fn used_length_is_marked() {
        let text = picture("at,0,0,0,0\nat,1,0,3,0\n");
        assert!(
            text.contains("d=\"M44 939V24H494V939\"") && text.contains(">used length 5</text>")
        );
        // Cloth that is free on the left is not used.
        let text = picture("at,0,0,7,0\nat,1,0,4,0\n");
        assert!(
            text.contains("d=\"M404 939V24H854V939\"") && text.contains(">used length 5</text>")
        );
    }

    #[test]
    fn lines_to_cut_lie_over_the_pieces() {
        // The corner piece stands left of the square.
        let layout = laid("at,0,0,0,0\nat,1,0,2,0\n");
        let text = draw(&layout, true);
        assert!(
            text.contains(", 0 shared pixels, 8 lines to cut</title>"),
            "{text}"
        );
        // The first line goes along the bottom of both, from (0, 0) to (4, 0).
        assert!(
            text.contains(" d=\"M55 928V940M55 934h338M387 928l6 6l-6 6M"),
            "{text}"
        );
        // The last one goes up the square's right side, from (4, 0) to (4, 2).
        assert!(
            text.contains("M398 923H410M404 923v-158M398 771l6 -6l6 6\"/>\n"),
            "{text}"
        );
        let without = draw(&layout, false);
        assert!(!without.contains("to cut") && !without.contains("#d80000\" stroke-width"));
    }

    #[test]
    fn a_layout_before_and_after_its_compaction() {
        // The corner piece slides to the sheet's corner, the square into its notch.
        let before = laid("at,0,0,1,0\nat,1,0,6,1\n");
        let text = draw_compaction(&before);
        let words = "<title>before: 2 pieces, 10 rows by 12 columns, used length 7, 0 shared pixels; \
                     after: 2 pieces, 10 rows by 12 columns, used length 3, 0 shared pixels, 6 pixels slid</title>";
        assert!(text.contains(words), "{text}");
        let [alone, after] = [&before, &before.compacted().0].map(|layout| draw(layout, false));
        assert!(alone.contains(" width=\"1148\" height=\"990\" "));
        assert!(text.contains(" width=\"1148\" height=\"1980\" "));
        // Both are drawn as they are alone, the second one lower by the first one's height.
        let pieces = |text: &str| -> Vec<String> {
            let pieces = text.lines().filter(|line| line.contains("<title>piece "));
            pieces.map(str::to_string).collect()
        };
        assert_eq!(pieces(&text), [pieces(&alone), pieces(&after)].concat());
        assert!(text.contains("<g transform=\"translate(0 990)\">"));
        assert_eq!(text.matches(">used length ").count(), 2);
    }

    #[test]
    fn each_piece_has_its_number() {
        let text = picture("at,0,0,0,0\nat,1,0,0,0\n");
        assert!(text.contains(">0</text>") && text.contains(">1</text>"));
        assert!(text.contains("<title>piece 1, turn 0, corner (0, 0)</title>"));
    }
}
