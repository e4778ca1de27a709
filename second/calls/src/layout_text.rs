//! Damage to layout texts.

use second::inputs::random::Random;

/// Numbers and what only looks like one, for a field of a line.
const FIELDS: [&str; 24] = [
    "0",
    "1",
    "2",
    "45",
    "90",
    "180",
    "270",
    "360",
    "511",
    "4096",
    "65535",
    "65536",
    "65626",
    "99999",
    "100000",
    "",
    "00",
    "01",
    "-1",
    "+1",
    " 1",
    "1 ",
    "1,1",
    "4294967296",
];

/// Bytes that layout texts have or that look like them.
const BYTES: &[u8] = b"layoutat,,,,0123456789\n\n\r\t -+A;\0\xff";

/// A layout text with one damage, which some texts bear without being refused.
pub fn damaged(random: &mut Random, text: &[u8]) -> Vec<u8> {
    match random.between(0, 10) {
        0..=2 => with_field(random, text, None),
        3 => with_field(random, text, Some(TURN)),
        4 => with_line_changed(random, text),
        5 => text[..random.between(0, text.len() - 1)].to_vec(),
        6 => with_byte(random, text, 1),
        7 => with_byte(random, text, 0),
        8 => {
            let end: &[u8] = random.pick(&[b"\n", b"\0", b"at,0,0,0,0\n", b"at", b" "]);
            [text, end].concat()
        }
        _ => {
            let mut text = text.to_vec();
            text.remove(random.between(0, text.len() - 1));
            text
        }
    }
}

/// The lines, each with its line feed.
fn lines(text: &[u8]) -> Vec<Vec<u8>> {
    let lines = text.split_inclusive(|&byte| byte == b'\n');
    lines.map(<[u8]>::to_vec).collect()
}

/// The field of a turn in the line of a piece.
const TURN: usize = 2;

/// A text with one field of a line written anew, or that of the turn with one of the four.
fn with_field(random: &mut Random, text: &[u8], field: Option<usize>) -> Vec<u8> {
    let mut lines = lines(text);
    let line = random.between(0, lines.len() - 1);
    let content = lines[line].strip_suffix(b"\n").unwrap_or(&lines[line]);
    let mut fields: Vec<Vec<u8>> = content
        .split(|&byte| byte == b',')
        .map(<[u8]>::to_vec)
        .collect();
    let turn = field.is_some() && fields.len() > TURN;
    let field = field
        .filter(|_| turn)
        .unwrap_or_else(|| random.between(0, fields.len() - 1));
    fields[field] = if turn {
        random.pick(&["0", "90", "180", "270"]).into()
    } else if field == 0 {
        random
            .pick(&["at", "layout", "Layout", "att", "", "job"])
            .into()
    } else if random.chance(40) {
        neighbour(random, &fields[field])
    } else {
        random.pick(&FIELDS).into()
    };
    lines[line] = fields.join(&b',');
    lines[line].push(b'\n');
    lines.concat()
}

/// A number close to a field's.
fn neighbour(random: &mut Random, field: &[u8]) -> Vec<u8> {
    let number: usize = String::from_utf8_lossy(field).parse().unwrap_or(7);
    let near = random.pick(&[number + 1, number.saturating_sub(1), number + 65_536]);
    near.to_string().into_bytes()
}

/// A text with a line doubled, missing, in another's place or with another end.
fn with_line_changed(random: &mut Random, text: &[u8]) -> Vec<u8> {
    let mut lines = lines(text);
    let (one, other) = (
        random.between(0, lines.len() - 1),
        random.between(0, lines.len() - 1),
    );
    match random.between(0, 3) {
        0 => lines.insert(one, lines[one].clone()),
        1 => drop(lines.remove(one)),
        2 => lines.swap(one, other),
        _ => {
            lines[one].pop();
            let end: &[u8] = random.pick(&[b"\r\n", b"\r", b"\n\n", b",\n", b" \n"]);
            lines[one].extend(end);
        }
    }
    lines.concat()
}

/// A text with one byte in the place of so many.
fn with_byte(random: &mut Random, text: &[u8], replaced: usize) -> Vec<u8> {
    let place = random.between(0, text.len() - replaced);
    let byte = if random.chance(20) {
        random.byte()
    } else {
        random.pick(BYTES)
    };
    [&text[..place], &[byte], &text[place + replaced..]].concat()
}
