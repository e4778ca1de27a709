//! Damaged job texts and noise: inputs that are no jobs, or are jobs by luck.

use crate::MAX_INPUT;

use super::jobs::{self, Job, Piece, MAX_SIDE};
use super::kind::Kind;
use super::random::Random;
use super::shapes;

/// Every kind of damaged input.
pub fn kinds() -> Vec<Kind> {
    vec![
        Kind::listed("fixed", FIXED.map(<[u8]>::to_vec).to_vec()),
        Kind::listed("cut at every byte", cut_at_every_byte()),
        Kind::new("cut", 80, cut),
        Kind::new("byte changed", 250, byte_changed),
        Kind::new("byte added", 80, byte_added),
        Kind::new("byte missing", 80, byte_missing),
        Kind::new("line doubled", 40, line_doubled),
        Kind::new("line missing", 40, line_missing),
        Kind::new("lines swapped", 60, lines_swapped),
        Kind::new("line ends changed", 40, line_ends_changed),
        Kind::new("more after the end", 40, more_after_the_end),
        Kind::new("number misspelt", 150, number_misspelt),
        Kind::new("number changed", 250, number_changed),
        Kind::new("gap or version", 120, gap_or_version),
        Kind::new("lock or version", 120, lock_or_version),
        Kind::new("sheet area", 50, sheet_area),
        Kind::new("box areas", 40, box_areas),
        Kind::new("piece too large", 40, piece_too_large),
        Kind::new("loose box", 80, loose_box),
        Kind::new("random bytes", 60, random_bytes),
        Kind::new("words in disorder", 60, words_in_disorder),
        Kind::listed("length at the limit", lengths_at_the_limit()),
    ]
}

/// Texts that a reader can stumble over, the empty one first.
const FIXED: [&[u8]; 33] = [
    b"",
    b"\n",
    b"\n\n\n",
    b",",
    b"job",
    b"job,",
    b"job,1,1,1,1",
    b"job,1,1,1,1\n",
    b"job,1,1,1,1\npiece,0,1,1,1\nrow,#",
    b"job,1,1,1,1\r\npiece,0,1,1,1\r\nrow,#\r\n",
    b"\xef\xbb\xbfjob,1,1,1,1\npiece,0,1,1,1\nrow,#\n",
    b"job,1,1,1,1\npiece,0,1,1,1\nrow,#\n\n",
    b"job,1,1,1,1\npiece,0,1,1,1\nrow,#\n\0",
    b"job,1,1,1,1\npiece,0,1,1,1\nrow,.\n",
    b"job,1,512,4096,64\n",
    b"job,1,99999,99999,99999\n",
    b"job,2\n",
    b"job,2,1,1,1\npiece,0,1,1,1\nrow,#\n",
    b"job,2,1,1,1,\npiece,0,1,1,1\nrow,#\n",
    b"job,2,1,1,1,8,0\npiece,0,1,1,1\nrow,#\n",
    b"job,2,1,1,1,9\npiece,0,1,1,1\nrow,#\n",
    b"job,2,1,1,1,08\npiece,0,1,1,1\nrow,#\n",
    b"job,1,1,1,1,0\npiece,0,1,1,1\nrow,#\n",
    b"job,3,1,1,1,0\npiece,0,1,1,1\nrow,#\n",
    b"job,3,1,1,1,0\npiece,0,1,1,1,0\nrow,#\n",
    b"job,3,1,1,1,8\npiece,0,1,1,1,1\nrow,#\n",
    b"job,3,1,1,1,0\npiece,0,1,1,1,2\nrow,#\n",
    b"job,3,1,1,1\npiece,0,1,1,1,1\nrow,#\n",
    b"job,2,1,1,1,0\npiece,0,1,1,1,0\nrow,#\n",
    b"job,1,1,1,1\npiece,0,1,1,1,0\nrow,#\n",
    b"job,4,1,1,1,0\npiece,0,1,1,1,0\nrow,#\n",
    b"job,2,512,4096,64,9\n",
    b"job,2,512,4096,64,8\n",
];

/// The text of a small job, on which damage is done, in any version.
fn small_text(random: &mut Random) -> Vec<u8> {
    let job = jobs::small(random);
    any_text(random, &job)
}

/// The text of a job in any version.
fn any_text(random: &mut Random, job: &Job) -> Vec<u8> {
    let gap = jobs::any_gap(random);
    match random.between(1, 3) {
        1 => job.text(),
        2 => job.text_with_gap(gap),
        _ => {
            let percent = jobs::any_locks(random);
            job.text_with_locks(random, gap, percent)
        }
    }
}

/// A text of each version without its end, from each of its bytes on.
fn cut_at_every_byte() -> Vec<Vec<u8>> {
    let versions = [
        ("job,1,3,12,2", ["", ""]),
        ("job,2,3,12,2,7", ["", ""]),
        ("job,3,3,12,2,7", [",1", ",0"]),
    ];
    let texts = versions.map(|(line, [first, second])| {
        let rows = "row,##########\nrow,#........#\n";
        format!("{line}\npiece,0,10,2,5{first}\n{rows}piece,1,2,1,15{second}\nrow,##\n")
    });
    let ends = |text: &String| {
        let text = text.clone().into_bytes();
        (0..text.len()).map(move |end| text[..end].to_vec())
    };
    texts.iter().flat_map(ends).collect()
}

/// A text without its end.
fn cut(random: &mut Random) -> Vec<u8> {
    let mut text = small_text(random);
    text.truncate(random.between(0, text.len() - 1));
    text
}

/// A byte of job texts or one that looks like them, now and then any byte.
fn likely_byte(random: &mut Random) -> u8 {
    if random.chance(20) {
        return random.byte();
    }
    random.pick(b"jobpiecerow,,,,##..0123456789\n\n\r\t -+JR;\0")
}

/// A text with one byte changed.
fn byte_changed(random: &mut Random) -> Vec<u8> {
    let mut text = small_text(random);
    let place = random.between(0, text.len() - 1);
    text[place] = likely_byte(random);
    text
}

/// A text with one byte more.
fn byte_added(random: &mut Random) -> Vec<u8> {
    let mut text = small_text(random);
    let place = random.between(0, text.len());
    text.insert(place, likely_byte(random));
    text
}

/// A text with one byte less.
fn byte_missing(random: &mut Random) -> Vec<u8> {
    let mut text = small_text(random);
    text.remove(random.between(0, text.len() - 1));
    text
}

/// The lines of a small job, each with its line feed.
fn small_lines(random: &mut Random) -> Vec<Vec<u8>> {
    let text = small_text(random);
    text.split_inclusive(|&byte| byte == b'\n')
        .map(<[u8]>::to_vec)
        .collect()
}

/// A text with one line twice.
fn line_doubled(random: &mut Random) -> Vec<u8> {
    let mut lines = small_lines(random);
    let place = random.between(0, lines.len() - 1);
    lines.insert(place, lines[place].clone());
    lines.concat()
}

/// A text with one line less.
fn line_missing(random: &mut Random) -> Vec<u8> {
    let mut lines = small_lines(random);
    lines.remove(random.between(0, lines.len() - 1));
    lines.concat()
}

/// A text with two lines in each other's place.
fn lines_swapped(random: &mut Random) -> Vec<u8> {
    let mut lines = small_lines(random);
    let (one, other) = (
        random.between(0, lines.len() - 1),
        random.between(0, lines.len() - 1),
    );
    lines.swap(one, other);
    lines.concat()
}

/// A text with other bytes than a line feed at the end of one line, or of all.
fn line_ends_changed(random: &mut Random) -> Vec<u8> {
    let mut lines = small_lines(random);
    let end: &[u8] = random.pick(&[b"\r\n", b"\r", b"\n\r", b"\n\n", b" \n", b",\n", b"\0"]);
    let changed = if random.chance(50) {
        0..lines.len()
    } else {
        let place = random.between(0, lines.len() - 1);
        place..place + 1
    };
    for line in &mut lines[changed] {
        line.pop();
        line.extend(end);
    }
    lines.concat()
}

/// A whole text with more behind it: a piece too many, a row, an empty line, half a line.
fn more_after_the_end(random: &mut Random) -> Vec<u8> {
    let job = jobs::small(random);
    let piece = Piece::new(random, shapes::full(1, 1));
    let more = [
        piece.text(job.pieces.len()),
        "row,#\n".to_string(),
        "\n".to_string(),
        "row,".to_string(),
        "\0".to_string(),
        " ".to_string(),
    ];
    let mut text = any_text(random, &job);
    text.extend(more[random.between(0, more.len() - 1)].bytes());
    text
}

/// Lines with one number of a job or piece line written anew.
fn with_number(
    random: &mut Random,
    mut lines: Vec<Vec<u8>>,
    write: impl Fn(&mut Random, usize) -> String,
) -> Vec<Vec<u8>> {
    let headers: Vec<usize> = (0..lines.len())
        .filter(|&k| !lines[k].starts_with(b"row"))
        .collect();
    let line = &mut lines[random.pick(&headers)];
    let text = String::from_utf8_lossy(line).trim_end().to_string();
    let mut fields: Vec<String> = text.split(',').map(str::to_string).collect();
    let field = random.between(1, fields.len() - 1);
    // A field that an earlier change left without a number counts as 1.
    fields[field] = write(random, fields[field].parse().unwrap_or(1));
    *line = (fields.join(",") + "\n").into_bytes();
    lines
}

/// A text with one number in a spelling that is none of a number, or that overflows to the number.
fn number_misspelt(random: &mut Random) -> Vec<u8> {
    let lines = small_lines(random);
    let misspell = |random: &mut Random, number: usize| match random.between(0, 13) {
        0 => String::new(),
        1 => format!("0{number}"),
        2 => format!("{number:06}"),
        3 => format!("+{number}"),
        4 => format!("-{number}"),
        5 => format!(" {number}"),
        6 => format!("{number} "),
        7 => format!("{number}.0"),
        8 => format!("0x{number:x}"),
        9 => format!("{number},{number}"),
        10 => format!("{}", number + 100_000),
        11 => format!("{}", number + (1 << 16)),
        12 => format!("{}", number as u128 + (1 << 32)),
        _ => format!("{}", number as u128 + (1 << 64)),
    };
    with_number(random, lines, misspell).concat()
}

/// Numbers at and around the limits of every field.
const NUMBERS: [usize; 29] = [
    0, 1, 2, 3, 4, 7, 8, 9, 10, 14, 15, 16, 17, 63, 64, 65, 128, 129, 254, 255, 256, 511, 512, 513,
    4095, 4096, 4097, 65_536, 99_999,
];

/// A text with one to three numbers changed, often to one at a limit.
fn number_changed(random: &mut Random) -> Vec<u8> {
    let mut lines = small_lines(random);
    let change = |random: &mut Random, number: usize| match random.between(0, 3) {
        0 => format!("{}", number + 1),
        1 => format!("{}", number.saturating_sub(1)),
        _ => format!("{}", random.pick(&NUMBERS)),
    };
    for _ in 0..random.between(1, 3) {
        lines = with_number(random, lines, change);
    }
    lines.concat()
}

/// Spellings of a gap: those that are read, too large ones, ones that are cut to a right number, and no numbers.
const GAPS: [&str; 20] = [
    "0", "1", "8", "9", "9", "9", "10", "16", "255", "256", "264", "65535", "65536", "99999", "08",
    "00", "", "-1", "+1", "100000",
];

/// Versions: mostly the one that has a gap, the one that has none, the one that has locks, some that are not known, and no numbers.
const VERSIONS: [&str; 17] = [
    "2", "2", "2", "2", "2", "2", "2", "2", "2", "1", "1", "3", "4", "0", "02", "258", "65538",
];

/// A text whose first line has some version and the fields of that version or of another one, often with a gap that none has.
fn gap_or_version(random: &mut Random) -> Vec<u8> {
    let job = jobs::small(random);
    let (rows, columns, count) = (job.rows, job.columns, job.pieces.len());
    let version = random.pick(&VERSIONS);
    let mut line = format!("job,{version},{rows},{columns},{count}");
    for _ in 0..random.pick(&[0, 1, 1, 1, 1, 1, 1, 1, 1, 2]) {
        line = line + "," + random.pick(&GAPS);
    }
    // A sheet that is too large as well comes after the gap.
    if random.chance(10) {
        line = line.replacen(&format!(",{rows},{columns},"), ",512,4096,", 1);
    }
    let text = String::from_utf8_lossy(&job.text()).into_owned();
    let (_, pieces) = text.split_once('\n').expect("a text has a first line");
    format!("{line}\n{pieces}").into_bytes()
}

/// Spellings of what follows the turns of a piece: mostly a lock, locks that are none or are cut to a right number, no lock, or two.
const LOCKS: [&str; 20] = [
    ",0", ",0", ",0", ",1", ",1", ",1", ",2", ",2", ",3", ",255", ",256", ",257", ",65536",
    ",65537", ",99999", ",00", ",01", ",", "", ",0,1",
];

/// A text of version 3, or of another one, with a piece line whose lock is spelt anew.
fn lock_or_version(random: &mut Random) -> Vec<u8> {
    let mut job = jobs::small(random);
    let changed = random.between(0, job.pieces.len() - 1);
    // A piece that is too large as well comes after the lock.
    if random.chance(10) {
        job.pieces[changed].shape = shapes::full(job.columns + 1, 1);
    }
    let (rows, columns, count) = (job.rows, job.columns, job.pieces.len());
    let gap = jobs::any_gap(random);
    let line = match random.between(1, 10) {
        1 => format!("job,1,{rows},{columns},{count}\n"),
        2 => format!("job,2,{rows},{columns},{count},{gap}\n"),
        3 => format!("job,4,{rows},{columns},{count},{gap}\n"),
        _ => format!("job,3,{rows},{columns},{count},{gap}\n"),
    };
    let piece = |(number, piece): (usize, &Piece)| {
        let right = random.pick(&[",0", ",1"]);
        let lock = if number == changed {
            random.pick(&LOCKS)
        } else {
            right
        };
        piece.text_ending(number, lock)
    };
    let pieces: String = job.pieces.iter().enumerate().map(piece).collect();
    (line + &pieces).into_bytes()
}

/// A small job on a sheet of about the largest area, just above it or far above.
fn sheet_area(random: &mut Random) -> Vec<u8> {
    let mut job = jobs::small(random);
    job.rows = random.between(16, 512);
    let columns = 65_536 / job.rows + random.between(0, 2);
    job.columns = random
        .pick(&[columns, columns, columns + 100, 4096])
        .min(4096);
    any_text(random, &job)
}

/// A text whose last piece line brings the box areas to the largest total, just below or above.
///
/// A box of the largest sides leaves 511 pixels to the three bars before it.
fn box_areas(random: &mut Random) -> Vec<u8> {
    let area = random.between(509, 514);
    let (one, two) = (random.between(130, MAX_SIDE), random.between(130, 250));
    let lengths = [one, two, area - one - two, 1];
    let piece = |&length: &usize| Piece::new(random, shapes::full(length, 1));
    let pieces = lengths.iter().map(piece).collect();
    let (rows, columns) = random.pick(&[(256, 256), (255, 257), (255, 255), (254, 257)]);
    let job = Job {
        rows,
        columns,
        pieces,
    };
    let text = String::from_utf8_lossy(&job.text()).into_owned();
    text.replace("piece,3,1,1,", "piece,3,255,255,")
        .into_bytes()
}

/// A job with one more piece that is as long or as wide as the sheet, or longer or wider.
fn piece_too_large(random: &mut Random) -> Vec<u8> {
    let mut job = jobs::small(random);
    let more = random.between(0, 2);
    let shape = if random.chance(50) {
        shapes::full(job.columns + more, 1)
    } else {
        shapes::full(1, job.rows + more)
    };
    let place = random.between(0, job.pieces.len());
    job.pieces.insert(place, Piece::new(random, shape));
    any_text(random, &job)
}

/// A job with a piece whose box has an empty line at one of its sides, added or made empty.
fn loose_box(random: &mut Random) -> Vec<u8> {
    let mut job = jobs::small(random);
    let place = random.between(0, job.pieces.len() - 1);
    let shape = &mut job.pieces[place].shape;
    let (last_x, last_y) = (shape[0].len() - 1, shape.len() - 1);
    match random.between(0, 7) {
        0 => shape.insert(0, vec![false; last_x + 1]),
        1 => shape.push(vec![false; last_x + 1]),
        2 => shape.iter_mut().for_each(|row| row.insert(0, false)),
        3 => shape.iter_mut().for_each(|row| row.push(false)),
        4 => shape[0].fill(false),
        5 => shape[last_y].fill(false),
        6 => shape.iter_mut().for_each(|row| row[0] = false),
        _ => shape.iter_mut().for_each(|row| row[last_x] = false),
    }
    any_text(random, &job)
}

/// Bytes at random, after a right first line or none.
fn random_bytes(random: &mut Random) -> Vec<u8> {
    let lines = ["", "job,1,9,9,3\n", "job,2,9,9,3,4\n", "job,3,9,9,3,4\n"];
    let mut text = random.pick(&lines).as_bytes().to_vec();
    let any_byte = random.chance(50);
    for _ in 0..random.between(1, 300) {
        text.push(if any_byte {
            random.byte()
        } else {
            likely_byte(random)
        });
    }
    text
}

/// The words of job texts in any order.
fn words_in_disorder(random: &mut Random) -> Vec<u8> {
    let words = [
        "job,",
        "job,2,",
        "job,3,",
        "piece,",
        "row,",
        "0",
        "1",
        "2",
        ",",
        ",",
        "#",
        "#",
        ".",
        "\n",
        "\n",
        "0,1,1,1\n",
        "1,2,2,2\n",
        "row,#\n",
        "piece,1,1,1,1\n",
        "piece,1,1,1,1,1\n",
    ];
    let mut text = random
        .pick(&[
            "",
            "job,1,2,2,2\npiece,0,1,1,1\n",
            "job,2,2,2,2,1\npiece,0,1,1,1\n",
            "job,3,2,2,2,1\npiece,0,1,1,1,1\n",
        ])
        .to_string();
    for _ in 0..random.between(1, 20) {
        text += random.pick(&words);
    }
    text.into_bytes()
}

/// Right jobs, a right job with line feeds or marks after it, and random bytes, of lengths below, at
/// and above the largest input.
fn lengths_at_the_limit() -> Vec<Vec<u8>> {
    let mut random = Random::new(MAX_INPUT as u64);
    let mut inputs = Vec::new();
    for length in [MAX_INPUT - 1, MAX_INPUT, MAX_INPUT + 1, MAX_INPUT + 2] {
        inputs.extend((0..3).map(|_| job_of_length(&mut random, length)));
    }
    for length in [MAX_INPUT, MAX_INPUT + 1, 2 * MAX_INPUT, 20 * MAX_INPUT] {
        for filler in [b'\n', b'#'] {
            let mut text = small_text(&mut random);
            text.resize(length, filler);
            inputs.push(text);
        }
        inputs.push((0..length).map(|_| random.byte()).collect());
    }
    inputs
}

/// A job text of an exact length: frames of usual size, and a bar that fills it up.
fn job_of_length(random: &mut Random, length: usize) -> Vec<u8> {
    let mut job = Job {
        rows: 256,
        columns: 256,
        pieces: Vec::new(),
    };
    let mut missing = length - job.text().len();
    // A bar of three digits has room for 150 to 250 bytes.
    while missing > 250 {
        let columns = random.between(40, 60);
        let rows = random.between(20, 60).min((missing - 170) / (columns + 5));
        let border = random.between(3, 12);
        let frame = Piece::new(random, shapes::frame(columns, rows, border));
        job.pieces.push(frame);
        missing = length - job.text().len();
    }
    let number = job.pieces.len();
    let bar = |length| Piece {
        shape: shapes::full(length, 1),
        turns: 5,
    };
    let fills_up = |piece: &Piece| piece.text(number).len() == missing;
    job.pieces.extend((1..=MAX_SIDE).map(bar).find(fills_up));
    job.text()
}
