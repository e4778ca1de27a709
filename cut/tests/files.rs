//! The program's files for every example job that ends clear, read back and held against the second program's cut list.

mod read;

use std::path::{Path, PathBuf};
use std::process::{Command, Output};
use std::{env, fs, process};

use cut::Cut;
use second::cut::Step;
use second::job::{self, Job};
use second::layout;

/// A file of the example jobs.
fn example(name: &str) -> PathBuf {
    Path::new(env!("CARGO_MANIFEST_DIR"))
        .join("../jobs")
        .join(name)
}

/// The example jobs.
fn jobs() -> Vec<PathBuf> {
    let files = fs::read_dir(example("")).expect("the jobs are there");
    let files = files.map(|file| file.expect("a file").path());
    files
        .filter(|file| file.extension().is_some_and(|ending| ending == "job"))
        .collect()
}

/// A new folder of this process and a name.
fn new_folder(name: &str) -> PathBuf {
    let folder = env::temp_dir().join(format!("cut-{}-{name}", process::id()));
    fs::create_dir(&folder).expect("the folder is new");
    folder
}

/// The names of the files in a folder, in order; the folder is removed.
fn taken_files(folder: &Path) -> Vec<String> {
    let files = fs::read_dir(folder).expect("the folder is there");
    let name = |file: fs::DirEntry| file.file_name().to_string_lossy().into_owned();
    let mut names: Vec<String> = files.map(|file| name(file.expect("a file"))).collect();
    names.sort();
    fs::remove_dir_all(folder).expect("the folder can be removed");
    names
}

/// Runs the program in a folder on a job, a layout, a pitch and, where there is one, a name for the files.
fn run(folder: &Path, job: &Path, layout: &Path, pitch: &str, name: Option<&str>) -> Output {
    let mut program = Command::new(env!("CARGO_BIN_EXE_cut"));
    program.current_dir(folder).args([job, layout]).arg(pitch);
    program.args(name).output().expect("the program runs")
}

/// The job as the second program reads it.
fn read_job(job: &Path) -> Job {
    job::read(&fs::read(job).expect("a job")).expect("a right job")
}

/// The text of a job's stored layout: the output without its last line.
fn layout_text(job: &Path) -> String {
    let mut output = fs::read_to_string(job.with_extension("out")).expect("an output");
    output.truncate(output.find("end,").expect("a last line"));
    output
}

/// The cuts of a job's stored layout by the second program.
fn expected(job: &Path, pitch: u32) -> Vec<Cut> {
    let read = read_job(job);
    let places = layout::read(&read, layout_text(job).as_bytes()).expect("a right layout");
    let lines = second::cut::lines(&read, &places);
    let mut cuts = Vec::new();
    let mut from = (0.0, 0.0);
    for number in 0.. {
        match second::cut::step(&lines, pitch, number) {
            Step::Lift(x, y) => from = (x, y),
            Step::Cut(x, y) => cuts.push(Cut { from, to: (x, y) }),
            Step::Done => return cuts,
        }
    }
    cuts
}

#[test]
fn files_of_clear_jobs() {
    let mut compared = 0;
    let folder = new_folder("clear");
    for job in jobs() {
        let layout = job.with_extension("out");
        let output = fs::read_to_string(&layout).expect("an output");
        if !output.contains("\nend,clear,") {
            continue;
        }
        for pitch in [1, 64, 97, 4_096] {
            let found = run(&folder, &job, &layout, &pitch.to_string(), Some("name"));
            assert!(found.status.success(), "{job:?}: {found:?}");
            let written = |ending: &str| {
                let file = folder.join("name").with_extension(ending);
                let text = fs::read_to_string(&file).expect("the program wrote the file");
                fs::remove_file(file).expect("the file can be removed");
                text
            };
            let expected = expected(&job, pitch);
            let (svg, hpgl) = (written("svg"), written("plt"));
            assert_eq!(read::svg(&svg), expected, "{job:?}");
            assert_eq!(read::dxf(&written("dxf")), expected, "{job:?}");
            assert_eq!(read::hpgl(&hpgl), expected, "{job:?}");
            // A pitch that is a multiple of 8 makes every plotter unit whole.
            assert!(pitch % 8 != 0 || !hpgl.contains('.'), "{job:?}");
            let Job { rows, columns, .. } = read_job(&job);
            let sheet = [columns, rows].map(|side| side as f64 * f64::from(pitch) / 64.0);
            assert_eq!(read::svg_sheet(&svg), sheet, "{job:?}");
            compared += 1;
        }
    }
    assert_eq!(taken_files(&folder), [""; 0]);
    assert!(compared >= 70, "{compared}");
}

#[test]
fn files_of_an_output_and_of_a_layout_text_byte_for_byte() {
    let folder = new_folder("bytes");
    let job = example("example-clear.job");
    let text = folder.join("layout.txt");
    fs::write(&text, layout_text(&job)).expect("the file is written");
    let stored = Path::new(env!("CARGO_MANIFEST_DIR")).join("tests/expected/example-clear");
    for (name, layout) in [("output", job.with_extension("out")), ("text", text)] {
        let found = run(&folder, &job, &layout, "96", Some(name));
        assert!(found.status.success(), "{found:?}");
        for ending in ["svg", "dxf", "plt"] {
            let written = fs::read_to_string(folder.join(name).with_extension(ending));
            let stored = fs::read_to_string(stored.with_extension(ending));
            assert_eq!(
                written.expect("the program wrote the file"),
                stored.expect("the file is there")
            );
        }
    }
    fs::remove_dir_all(folder).expect("the folder can be removed");
}

#[test]
fn files_are_called_as_the_job_or_as_is_said() {
    let (job, layout) = (example("example-clear.job"), example("example-clear.out"));
    for (name, stem) in [(None, "example-clear"), (Some("squares"), "squares")] {
        let folder = new_folder(stem);
        let found = run(&folder, &job, &layout, "96", name);
        assert!(found.status.success() && found.stdout.is_empty() && found.stderr.is_empty());
        let plot = fs::read_to_string(folder.join(stem).with_extension("plt"));
        let cuts = read::hpgl(&plot.expect("the program wrote the file"));
        assert_eq!(cuts, expected(&job, 96));
        let endings = ["dxf", "plt", "svg"];
        assert_eq!(
            taken_files(&folder),
            endings.map(|ending| format!("{stem}.{ending}"))
        );
    }
}

#[test]
fn what_is_refused_leaves_no_file() {
    for (job, layout, pitch, words) in [
        (
            "example-open.job",
            "example-open.out",
            "64",
            "layout: pieces 0 and 1 share a pixel or lie within the gap: do not cut\n",
        ),
        (
            "gap-example-open.job",
            "gap-example-open.out",
            "64",
            "layout: pieces 0 and 1 share a pixel or lie within the gap: do not cut\n",
        ),
        (
            "example-clear.job",
            "example-clear.out",
            "0",
            "pitch: 1 to 4096\n",
        ),
        (
            "example-clear.job",
            "example-clear.out",
            "4097",
            "pitch: 1 to 4096\n",
        ),
        (
            "example-clear.job",
            "example-clear.out",
            "1.5",
            "the pitch is a number of sixty-fourths of a millimetre\n",
        ),
        (
            "example-clear.job",
            "example-clear.job",
            "64",
            "layout: refused by 1, line 1\n",
        ),
        (
            "example-clear.job",
            "example-open.out",
            "64",
            "layout: refused by 2, line 1\n",
        ),
        (
            "refused-2-even-turns.job",
            "example-clear.out",
            "64",
            "job: refused by 2, line 2\n",
        ),
    ] {
        let folder = new_folder("refused");
        let found = run(&folder, &example(job), &example(layout), pitch, None);
        assert!(!found.status.success());
        assert_eq!(String::from_utf8_lossy(&found.stderr), words);
        assert_eq!(taken_files(&folder), [""; 0]);
    }
}
