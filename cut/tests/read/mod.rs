//! Readers of the three formats, each from its text alone.

use cut::Cut;

/// Cuts by their four numbers.
fn cuts(numbers: &[f64]) -> Vec<Cut> {
    let cut = |n: &[f64]| Cut {
        from: (n[0], n[1]),
        to: (n[2], n[3]),
    };
    assert_eq!(numbers.len() % 4, 0);
    numbers.chunks(4).map(cut).collect()
}

/// The numbers of a text, between characters that are in none.
fn numbers(text: &str) -> Vec<f64> {
    let parts = text.split(|c: char| !(c.is_ascii_digit() || c == '.' || c == '-'));
    let parts = parts.filter(|part| !part.is_empty());
    parts.map(|part| part.parse().expect("a number")).collect()
}

/// What stands between a word and the next quotation mark.
fn quoted<'a>(text: &'a str, word: &str) -> &'a str {
    let rest = text.split(word).nth(1).expect("the word is there");
    rest.split('"').next().expect("the mark is there")
}

/// The sheet of an SVG text, columns first: the text says it as a size in millimetres and as the numbers that this size stands for.
pub fn svg_sheet(text: &str) -> [f64; 2] {
    let view = numbers(quoted(text, "viewBox=\""));
    let [width, height] = [view[2], view[3]];
    assert_eq!(view, [0.0, 0.0, width, height]);
    assert_eq!(quoted(text, " width=\""), format!("{width}mm"));
    assert_eq!(quoted(text, " height=\""), format!("{height}mm"));
    [width, height]
}

/// The cuts of an SVG text, with y upward again.
pub fn svg(text: &str) -> Vec<Cut> {
    let [_, height] = svg_sheet(text);
    let path = quoted(text, " d=\"");
    let moves = path.lines().filter(|line| !line.is_empty());
    assert!(moves
        .clone()
        .all(|line| line.starts_with('M') && line.contains('L')));
    let mut cuts = cuts(&numbers(path));
    for cut in &mut cuts {
        cut.from.1 = height - cut.from.1;
        cut.to.1 = height - cut.to.1;
    }
    cuts
}

/// The LINE entities of a DXF text, which is pairs of lines: a group code and a value.
pub fn dxf(text: &str) -> Vec<Cut> {
    let lines: Vec<&str> = text.lines().collect();
    assert_eq!(lines.len() % 2, 0);
    let pairs: Vec<(&str, &str)> = lines.chunks(2).map(|pair| (pair[0], pair[1])).collect();
    let section = [("0", "SECTION"), ("2", "ENTITIES")];
    let before = pairs.windows(2).position(|pair| pair == section);
    let entities = &pairs[before.expect("a section of entities") + section.len()..];
    let entities = entities.strip_suffix(&[("0", "ENDSEC"), ("0", "EOF")]);
    let mut entities = entities
        .expect("its end and the file's")
        .split(|pair| *pair == ("0", "LINE"));
    assert_eq!(entities.next(), Some(&[][..]));
    let numbers = entities.flat_map(|entity| {
        assert_eq!(entity[0], ("8", "CUT"));
        ["10", "20", "11", "21"].map(|code| {
            let pair = entity.iter().find(|pair| pair.0 == code);
            pair.expect("an end of a line")
                .1
                .parse::<f64>()
                .expect("a number")
        })
    });
    cuts(&numbers.collect::<Vec<f64>>())
}

/// The cuts of an HPGL text, in millimetres again: a pen goes up to a point and down to another.
pub fn hpgl(text: &str) -> Vec<Cut> {
    let commands: Vec<&str> = text.split(';').map(str::trim).collect();
    let end = commands.len() - 3;
    assert_eq!(commands[..2], ["IN", "SP1"]);
    assert_eq!(commands[end..], ["PU", "SP0", ""]);
    let moves = &commands[2..end];
    let is_cut = |pair: &[&str]| pair[0].starts_with("PU") && pair[1].starts_with("PD");
    assert!(moves.chunks(2).all(is_cut));
    let numbers = moves.iter().flat_map(|command| numbers(command));
    cuts(&numbers.map(|units| units / 40.0).collect::<Vec<f64>>())
}
