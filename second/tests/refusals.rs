//! Refusals of the job reader and the limit of the input's length.

/// A job of one 2 x 2 panel and one pixel, as lines without line feeds.
const LINES: [&str; 6] = [
    "job,1,9,8,2",
    "piece,0,2,2,5",
    "row,##",
    "row,.#",
    "piece,1,1,1,15",
    "row,#",
];

/// The output for the lines above with some of them replaced, line numbers from 1.
fn with_lines(changes: &[(usize, &str)]) -> String {
    let mut lines = LINES;
    for &(number, line) in changes {
        lines[number - 1] = line;
    }
    second::run((lines.join("\n") + "\n").as_bytes())
}

/// Checks the refusal for one replaced line.
fn assert_refused(number: usize, line: &str, cause: u8) {
    assert_eq!(
        with_lines(&[(number, line)]),
        format!("refused,{cause},{number}\n"),
        "{line:?}"
    );
}

#[test]
fn accepted_unchanged() {
    assert!(with_lines(&[]).starts_with("layout,1,9,8,2\n"));
}

#[test]
fn every_gap_is_accepted() {
    assert_eq!(with_lines(&[(1, "job,2,9,8,2,0")]), with_lines(&[]));
    for gap in 0..=8 {
        let line = format!("job,2,9,8,2,{gap}");
        // The layout text has no gap and keeps its version.
        assert!(with_lines(&[(1, &line)]).starts_with("layout,1,9,8,2\n"));
    }
}

#[test]
fn wrong_form_of_the_job_line() {
    for line in [
        "",
        "job",
        "job,1,9,8",
        "job,1,9,8,2,",
        "job,1,9,8,2,1",
        "job,1,9,8,2,0",
        "job,2,9,8,2,",
        "job,2,9,8,2,1,",
        "job,2,9,8,2,1,1",
        "job,2,9,8,2,00",
        "job,2,9,8,2,08",
        "job,2,9,8,2,-1",
        "job,2,9,8,2,+1",
        "job,2,9,8,2, 1",
        "job,2,9,8,2,1 ",
        "job,2,9,8,2,1\r",
        "job,2,9,8,2,100000",
        "job,2,9,8,2,x",
        "job,02,9,8,2,1",
        "job,3,9,8,2",
        "job,3,9,8,2,",
        "job,3,9,8,2,1,1",
        "job,03,9,8,2,1",
        "job,4,9,8,2",
        "job,4,9,8,2,1",
        "job,259,9,8,2,1",
        "job,0,9,8,2,1",
        "job,258,9,8,2,1",
        "job,2,9,8,2",
        "job,0,9,8,2",
        "job,01,9,8,2",
        "job,1,09,8,2",
        "job,1,9,8,02",
        "job,1,9,8,00",
        "job,1,9,8,123456",
        "job,1,-9,8,2",
        "job,1,+9,8,2",
        "job,1, 9,8,2",
        "job,1,9,8,2 ",
        "job,1,9,8,2\r",
        "job,1,,8,2",
        "job;1,9,8,2",
        "Job,1,9,8,2",
        " job,1,9,8,2",
        "job,1,9,8,x",
        "jobs,1,9,8,2",
        "piece,0,2,2,5",
        "job,1,9,0x8,2",
        "job,1,9.0,8,2",
        "job,1,9,8,2\u{660}",
    ] {
        assert_refused(1, line, 1);
    }
}

#[test]
fn form_comes_before_range() {
    assert_refused(1, "job,1,0,8,x", 1);
    assert_refused(1, "job,2,0,8,2", 1);
    assert_refused(1, "job,4,0,8,2,9", 1);
    assert_refused(1, "job,3,0,8,2", 1);
    assert_refused(1, "job,2,0,8,2,x", 1);
    assert_refused(1, "job,2,9,8,2,9,", 1);
    assert_refused(1, "job,1,512,4096,65,", 1);
    assert_refused(2, "piece,1,2,2,x", 1);
    assert_refused(2, "piece,0,9,9,1,1", 1);
}

#[test]
fn range_of_the_job_line() {
    for line in [
        "job,1,0,8,2",
        "job,1,513,8,2",
        "job,1,9,0,2",
        "job,1,9,4097,2",
        "job,1,9,8,0",
        "job,1,9,8,65",
        "job,1,99999,99999,99999",
        "job,1,513,4096,2",
    ] {
        assert_refused(1, line, 2);
    }
    for gap in [
        "9", "10", "16", "255", "256", "264", "65535", "65536", "99999",
    ] {
        assert_refused(1, &format!("job,2,9,8,2,{gap}"), 2);
    }
    assert_refused(1, "job,2,513,8,2,8", 2);
    assert_refused(1, "job,2,512,129,2,9", 2);
    assert_refused(1, "job,2,512,129,2,8", 3);
    assert_refused(1, "job,3,9,8,2,9", 2);
    assert_refused(1, "job,3,512,129,2,9", 2);
    assert_refused(1, "job,3,512,129,2,8", 3);
    assert_refused(1, "job,1,512,129,2", 3);
    assert_refused(1, "job,1,17,4096,2", 3);
    assert!(with_lines(&[(1, "job,1,512,128,2")]).starts_with("layout,1,512,128,2\n"));
    assert!(with_lines(&[(1, "job,1,16,4096,2")]).starts_with("layout,1,16,4096,2\n"));
}

#[test]
fn piece_line() {
    for line in [
        "piece,0,2,2",
        "piece,0,2,2,5,",
        "piece,00,2,2,5",
        "row,##",
        "piece 0,2,2,5",
    ] {
        assert_refused(2, line, 1);
    }
    for line in [
        "piece,1,2,2,5",
        "piece,0,0,2,5",
        "piece,0,2,0,5",
        "piece,0,256,2,5",
        "piece,0,2,256,5",
        "piece,0,2,2,0",
        "piece,0,2,2,4",
        "piece,0,2,2,16",
        "piece,0,2,2,17",
        "piece,0,9,10,4",
    ] {
        assert_refused(2, line, 2);
    }
    assert_refused(2, "piece,0,9,2,5", 6);
    assert_refused(2, "piece,0,2,10,5", 6);
    assert_refused(5, "piece,0,1,1,15", 2);
    assert_refused(5, "piece,2,1,1,15", 2);
}

/// The output for the lines above as a job of version 3 with a gap of 0, with the two piece lines given.
fn with_locks(first: &str, second: &str) -> String {
    with_lines(&[(1, "job,3,9,8,2,0"), (2, first), (5, second)])
}

#[test]
fn a_lock_in_version_3() {
    let (free, free_pixel) = ("piece,0,2,2,5,0", "piece,1,1,1,15,0");
    assert_eq!(with_locks(free, free_pixel), with_lines(&[]));
    for first in [0, 1] {
        for second in [0, 1] {
            let first = format!("piece,0,2,2,5,{first}");
            let second = format!("piece,1,1,1,15,{second}");
            // The layout text has no locks and keeps its version.
            assert!(with_locks(&first, &second).starts_with("layout,1,9,8,2\n"));
        }
    }
    for lock in [
        "", "00", "01", "-1", "+1", " 1", "1 ", "1\r", "x", "100000", "0,0",
    ] {
        let line = format!("piece,0,2,2,5,{lock}");
        assert_eq!(with_locks(&line, free_pixel), "refused,1,2\n", "{line}");
    }
    for lock in [
        "2", "3", "9", "10", "255", "256", "257", "65536", "65537", "99999",
    ] {
        let line = format!("piece,0,2,2,5,{lock}");
        assert_eq!(with_locks(&line, free_pixel), "refused,2,2\n", "{line}");
        let line = format!("piece,1,1,1,15,{lock}");
        assert_eq!(with_locks(free, &line), "refused,2,5\n", "{line}");
    }
    // The form of the whole line comes first, and a lock out of range before a box above the sheet.
    assert_eq!(with_locks("piece,0,2,2,5", free_pixel), "refused,1,2\n");
    assert_eq!(with_locks("piece,0,9,2,5", free_pixel), "refused,1,2\n");
    assert_eq!(with_locks("piece,0,9,2,5,2", free_pixel), "refused,2,2\n");
    assert_eq!(with_locks("piece,0,9,2,5,1", free_pixel), "refused,6,2\n");
    assert_eq!(with_locks(free, "piece,1,1,1,15"), "refused,1,5\n");
}

#[test]
fn no_lock_in_older_versions() {
    for lock in [0, 1] {
        let line = format!("piece,0,2,2,5,{lock}");
        assert_refused(2, &line, 1);
        let gapped = with_lines(&[(1, "job,2,9,8,2,0"), (2, &line)]);
        assert_eq!(gapped, "refused,1,2\n");
    }
}

#[test]
fn row_line() {
    for line in [
        "row,#", "row,###", "row,#x", "row, #", "row", "row,", "rom,##", "##", "row,##,", "",
    ] {
        assert_refused(3, line, 1);
    }
    assert_refused(4, "piece,1,1,1,15", 1);
}

#[test]
fn loose_box_names_the_last_row() {
    assert_refused(4, "row,..", 5);
    assert_eq!(with_lines(&[(3, "row,..")]), "refused,5,4\n");
    assert_eq!(with_lines(&[(3, "row,.#")]), "refused,5,4\n");
    assert_eq!(with_lines(&[(3, "row,#."), (4, "row,#.")]), "refused,5,4\n");
    assert_refused(6, "row,.", 5);
    // A wrong form further down comes later, and one in the last row comes first.
    assert_eq!(with_lines(&[(3, "row,.."), (5, "x")]), "refused,5,4\n");
    assert_eq!(with_lines(&[(3, "row,.."), (4, "row,x.")]), "refused,1,4\n");
}

#[test]
fn areas_above_the_limit() {
    let first = format!(
        "job,1,256,256,2\npiece,0,32,16,1\n{}",
        format!("row,{}\n", "#".repeat(32)).repeat(16)
    );
    let text = first.clone() + "piece,1,255,255,1\n";
    assert_eq!(second::run(text.as_bytes()), "refused,4,19\n");
    let below = first.replace("piece,0,32,16", "piece,0,32,15").replacen(
        &format!("row,{}\n", "#".repeat(32)),
        "",
        1,
    );
    let text = below + "piece,1,255,255,1\n";
    assert_eq!(second::run(text.as_bytes()), "refused,1,19\n");
}

#[test]
fn missing_and_extra_lines() {
    assert_eq!(second::run(b""), "refused,1,1\n");
    assert_eq!(second::run(b"\n"), "refused,1,1\n");
    let text = LINES.join("\n");
    assert_eq!(second::run(text.as_bytes()), "refused,1,6\n");
    for count in 1..6 {
        let text = LINES[..count].join("\n") + "\n";
        assert_eq!(
            second::run(text.as_bytes()),
            format!("refused,1,{}\n", count + 1)
        );
    }
    for extra in ["\n", "x", "row,#\n", "piece,2,1,1,1\n", " "] {
        let text = LINES.join("\n") + "\n" + extra;
        assert_eq!(second::run(text.as_bytes()), "refused,1,7\n");
    }
    // A line without its line feed is of wrong form even where its number is out of range.
    assert_eq!(second::run(b"job,1,0,8,2"), "refused,1,1\n");
    assert_eq!(
        second::run(b"job,1,1,1,1\npiece,0,1,1,1\nrow,."),
        "refused,1,3\n"
    );
}

#[test]
fn length_of_the_input() {
    let mut text = (LINES.join("\n") + "\n").into_bytes();
    text.resize(65_536, b'x');
    assert_eq!(second::run(&text), "refused,1,7\n");
    text.push(b'x');
    assert_eq!(second::run(&text), "refused,7,0\n");
    assert_eq!(second::run(&[b'\n'; 65_537]), "refused,7,0\n");
}
