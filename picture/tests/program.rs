//! Runs of the program on the example jobs.

use std::path::{Path, PathBuf};
use std::process::{Command, Output};
use std::{env, fs, process};

use second::{compact, cut, job, layout};

/// A file of the example jobs.
fn example(name: &str) -> PathBuf {
    Path::new(env!("CARGO_MANIFEST_DIR"))
        .join("../jobs")
        .join(name)
}

/// Runs the program with an option, or none, on the files that are named.
fn run(option: Option<&str>, files: &[&Path]) -> Output {
    Command::new(env!("CARGO_BIN_EXE_picture"))
        .args(option)
        .args(files)
        .output()
        .expect("the program runs")
}

/// The example jobs.
fn jobs() -> impl Iterator<Item = PathBuf> {
    let files = fs::read_dir(example("")).expect("the folder is there");
    let files = files.map(|file| file.expect("the file is there").path());
    files.filter(|file| file.extension().is_some_and(|kind| kind == "job"))
}

/// Checks that the program says something on standard error only and fails.
fn assert_refused(output: &Output) {
    assert_eq!(output.status.code(), Some(1));
    assert!(output.stdout.is_empty() && !output.stderr.is_empty());
}

#[test]
fn every_layout_of_the_examples_is_drawn() {
    for job in jobs() {
        let layout = job.with_extension("out");
        let output = run(None, &[&job, &layout]);
        let text = fs::read_to_string(&layout).expect("the output is there");
        if text.starts_with("refused,") {
            assert_refused(&output);
            continue;
        }
        let picture = String::from_utf8(output.stdout).expect("the picture is text");
        assert!(
            output.status.success() && output.stderr.is_empty(),
            "{job:?}"
        );
        assert!(
            picture.starts_with("<svg ") && picture.ends_with("</svg>\n"),
            "{job:?}"
        );
        let pieces = text.matches("\nat,").count();
        assert_eq!(picture.matches("<title>piece ").count(), pieces, "{job:?}");
        let read = job::read(&fs::read(&job).expect("the job is there")).expect("a right job");
        let locked = read.pieces.iter().filter(|piece| piece.locked).count();
        assert_eq!(
            picture.matches(", locked</title>").count(),
            locked,
            "{job:?}"
        );
        assert_eq!(picture.matches("<clipPath ").count(), locked, "{job:?}");
    }
}

#[test]
fn lines_to_cut_are_drawn_over_clear_layouts_alone() {
    for file in jobs() {
        let output = run(Some("--cut"), &[&file, &file.with_extension("out")]);
        let text = fs::read_to_string(file.with_extension("out")).expect("the output is there");
        let Some(end) = text.find("end,clear,") else {
            assert_refused(&output);
            continue;
        };
        let job = job::read(&fs::read(&file).expect("the job is there")).expect("a right job");
        let places = layout::read(&job, &text.as_bytes()[..end]).expect("a right layout");
        let picture = String::from_utf8(output.stdout).expect("the picture is text");
        let (_, path) = picture
            .split_once("stroke=\"#d80000\" stroke-width=\"2\" d=\"")
            .expect("the lines are there");
        let (path, _) = path.split_once('"').expect("the path ends");
        // A bar, the line and an arrow.
        let drawn = path.matches('M').count();
        assert_eq!(drawn, 3 * cut::lines(&job, &places).len(), "{file:?}");
    }
}

#[test]
fn compactions_are_drawn_of_clear_layouts_alone() {
    for file in jobs() {
        let output = run(Some("--compact"), &[&file, &file.with_extension("out")]);
        let text = fs::read_to_string(file.with_extension("out")).expect("the output is there");
        let Some(end) = text.find("end,clear,") else {
            assert_refused(&output);
            continue;
        };
        let job = job::read(&fs::read(&file).expect("the job is there")).expect("a right job");
        let mut places = layout::read(&job, &text.as_bytes()[..end]).expect("a right layout");
        let picture = String::from_utf8(output.stdout).expect("the picture is text");
        let mut titles = picture
            .lines()
            .filter(|line| line.contains("<title>piece "));
        // Where the pieces lie before, and then after.
        for _ in 0..2 {
            for (number, place) in places.iter().enumerate() {
                let (degrees, x, y) = (place.turn.degrees(), place.x, place.y);
                let words = format!("<title>piece {number}, turn {degrees}, corner ({x}, {y})");
                let title = titles.next().expect("the piece is there");
                assert!(title.contains(&words), "{file:?}: {title}");
            }
            compact::compact(&job, &mut places);
        }
        assert_eq!(titles.count(), 0, "{file:?}");
        let mut frames: Vec<&str> = picture.split("<clipPath id=\"").skip(1).collect();
        let locked = job.pieces.iter().filter(|piece| piece.locked).count();
        assert_eq!(frames.len(), 2 * locked, "{file:?}");
        // No two of them have one name.
        frames.iter_mut().for_each(|frame| {
            *frame = frame.split('"').next().expect("a name");
        });
        frames.sort();
        frames.dedup();
        assert_eq!(frames.len(), 2 * locked, "{file:?}");
    }
}

#[test]
fn a_layout_that_does_not_keep_the_gap_is_neither_cut_nor_compacted() {
    let (job, layout) = (
        example("gap-example-open.job"),
        example("gap-example-open.out"),
    );
    let output = run(Some("--cut"), &[&job, &layout]);
    assert_refused(&output);
    let words = "layout: pieces share a pixel or lie within the gap: do not cut\n";
    assert_eq!(String::from_utf8_lossy(&output.stderr), words);
    let output = run(Some("--compact"), &[&job, &layout]);
    assert_refused(&output);
    let words = "layout: pieces share a pixel or lie within the gap: nothing slides\n";
    assert_eq!(String::from_utf8_lossy(&output.stderr), words);
    // The same layout of the job without a gap.
    let job = example("example-clear.job");
    for option in ["--cut", "--compact"] {
        assert!(run(Some(option), &[&job, &layout]).status.success());
    }
}

#[test]
fn wrong_inputs_are_refused() {
    let (clear, open) = (example("example-clear.job"), example("example-open.out"));
    assert_refused(&run(None, &[&clear, &open]));
    assert_refused(&run(None, &[&clear, &clear]));
    assert_refused(&run(None, &[&open, &open]));
    assert_refused(&run(None, &[&clear, &example("there-is-no-such-file")]));
    let noise = env::temp_dir().join(format!("picture-{}.out", process::id()));
    fs::write(&noise, b"layout,1,2,4,2\n\xff\xfe\n").expect("the file is written");
    assert_refused(&run(None, &[&clear, &noise]));
    fs::remove_file(&noise).expect("the file is there");
}

#[test]
fn two_files_are_needed() {
    assert_refused(&run(None, &[]));
    let (job, layout) = (example("example-clear.job"), example("example-clear.out"));
    assert_refused(&run(Some("--compact"), &[&job]));
    assert_refused(&run(Some("--compacted"), &[&job, &layout]));
}
