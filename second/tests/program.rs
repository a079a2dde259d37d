//! The program as it is called: files, standard input, headings, failures, and
//! the usage text.

use std::fs;
use std::io::Write;
use std::path::{Path, PathBuf};
use std::process::{Command, Output, Stdio};

use second::builder::NamedFile;
use second::limits::limit_files;
use second::make::made_file;
use second::report::report_of;
use second::samples::sample_files;
use second::show::show_of;
use second::starts::inverter_file;

fn run(words: &[&str], input: &[u8]) -> Output {
    let mut child = Command::new(env!("CARGO_BIN_EXE_second"))
        .args(words)
        .stdin(Stdio::piped())
        .stdout(Stdio::piped())
        .stderr(Stdio::piped())
        .spawn()
        .expect("the program starts");
    let mut pipe = child.stdin.take().expect("the input is a pipe");
    // The program may stop reading before the end, which is not a failure here.
    let _ = pipe.write_all(input);
    drop(pipe);
    child.wait_with_output().expect("the program ends")
}

/// A directory of the test's own, empty at the start.
fn fresh_directory(name: &str) -> PathBuf {
    let directory = PathBuf::from(env!("CARGO_TARGET_TMPDIR")).join(name);
    let _ = fs::remove_dir_all(&directory);
    fs::create_dir_all(&directory).expect("the directory can be made");
    directory
}

fn text(bytes: &[u8]) -> String {
    String::from_utf8_lossy(bytes).into_owned()
}

#[test]
fn grades_standard_input() {
    let file = made_file(1, 0);
    let output = run(&["grade"], &file);
    assert_eq!(text(&output.stdout), report_of(&file));
    assert_eq!(output.status.code(), Some(0));
    let long = run(&["grade"], &vec![1; 200_000]);
    assert_eq!(text(&long.stdout), "refused 1 at 0\n");
    assert_eq!(long.status.code(), Some(0));
}

#[test]
fn grades_named_files() {
    let directory = fresh_directory("named");
    let (one, two) = (directory.join("one.cir"), directory.join("two.cir"));
    fs::write(&one, made_file(1, 1)).unwrap();
    fs::write(&two, []).unwrap();
    let (one, two) = (one.to_str().unwrap(), two.to_str().unwrap());
    let alone = run(&["grade", one], &[]);
    let report = report_of(&made_file(1, 1));
    assert_eq!(text(&alone.stdout), report);
    let both = run(&["grade", two, one], &[]);
    let expected = format!("==> {two} <==\nrefused 14 at 0\n\n==> {one} <==\n{report}");
    assert_eq!(text(&both.stdout), expected);
    assert_eq!(both.status.code(), Some(0));
}

#[test]
fn shows_standard_input() {
    let file = made_file(1, 0);
    let output = run(&["show"], &file);
    assert_eq!(text(&output.stdout), show_of(&file));
    assert_eq!(output.status.code(), Some(0));
    let long = run(&["show"], &vec![1; 200_000]);
    assert_eq!(text(&long.stdout), "refused 1 at 0\n");
    assert_eq!(long.status.code(), Some(0));
}

#[test]
fn shows_named_files() {
    let directory = fresh_directory("shown");
    let (one, two) = (directory.join("one.cir"), directory.join("two.cir"));
    fs::write(&one, inverter_file().bytes).unwrap();
    fs::write(&two, []).unwrap();
    let (one, two) = (one.to_str().unwrap(), two.to_str().unwrap());
    let shown = show_of(&inverter_file().bytes);
    assert_eq!(text(&run(&["show", one], &[]).stdout), shown);
    let both = run(&["show", one, two], &[]);
    let expected = format!("==> {one} <==\n{shown}\n==> {two} <==\nrefused 14 at 0\n");
    assert_eq!(text(&both.stdout), expected);
    assert_eq!(both.status.code(), Some(0));
}

#[test]
fn tells_a_failed_read() {
    let directory = fresh_directory("failed");
    let good = directory.join("good.cir");
    fs::write(&good, [1]).unwrap();
    let (good, missing) = (good.to_str().unwrap(), "no/such/file.cir");
    for command in ["grade", "show"] {
        let output = run(&[command, missing, good, directory.to_str().unwrap()], &[]);
        assert_eq!(
            text(&output.stdout),
            format!("==> {good} <==\nrefused 2 at 0\n")
        );
        assert_eq!(output.status.code(), Some(1));
        let told = text(&output.stderr);
        assert!(told.contains(missing) && told.contains("failed"), "{told}");
        assert_eq!(told.lines().count(), 2);
    }
}

/// The directory holds these files and no others.
fn assert_laid(directory: &Path, files: Vec<NamedFile>) {
    assert_eq!(fs::read_dir(directory).unwrap().count(), files.len());
    for file in files {
        let laid = fs::read(directory.join(&file.name)).unwrap();
        assert!(laid == file.bytes, "{}", file.name);
    }
}

#[test]
fn lays_the_limits() {
    let directory = fresh_directory("limits").join("made/on/the/way");
    let output = run(&["limits", directory.to_str().unwrap()], &[]);
    assert_eq!(output.status.code(), Some(0));
    assert_laid(&directory, limit_files());
    let in_the_way = directory.join("inputs-1.cir");
    let failed = run(&["limits", in_the_way.to_str().unwrap()], &[]);
    assert_eq!(failed.status.code(), Some(1));
    assert!(text(&failed.stderr).contains("inputs-1.cir"));
}

#[test]
fn lays_the_samples() {
    let directory = fresh_directory("samples");
    let output = run(&["samples", directory.to_str().unwrap()], &[]);
    assert_eq!(output.status.code(), Some(0));
    assert!(output.stdout.is_empty() && output.stderr.is_empty());
    assert_laid(&directory, sample_files());
}

#[test]
fn makes_damages_and_tallies() {
    let directory = fresh_directory("laid");
    let place = directory.to_str().unwrap();
    assert_eq!(run(&["make", place, "5", "3"], &[]).status.code(), Some(0));
    let damaged = run(&["damage", place, "5", "2"], &[]);
    assert_eq!(damaged.status.code(), Some(0));
    let mut names: Vec<String> = fs::read_dir(&directory)
        .unwrap()
        .map(|entry| entry.unwrap().file_name().into_string().unwrap())
        .collect();
    names.sort();
    let expected = [
        "damaged-00000.cir",
        "damaged-00001.cir",
        "made-00000.cir",
        "made-00001.cir",
        "made-00002.cir",
    ];
    assert_eq!(names, expected);
    let made = directory.join("made-00002.cir");
    assert_eq!(fs::read(&made).unwrap(), made_file(5, 2));
    let empty = directory.join("empty.cir");
    fs::write(&empty, []).unwrap();
    let tally = run(
        &["refusals", made.to_str().unwrap(), empty.to_str().unwrap()],
        &[],
    );
    let lines = text(&tally.stdout);
    assert!(lines.starts_with("accepted 1\nrefused 1 0\n"), "{lines}");
    assert!(lines.ends_with("refused 13 0\nrefused 14 1\n"), "{lines}");
}

#[test]
fn wrong_words_show_the_usage() {
    let wrong: [&[&str]; 11] = [
        &[],
        &["judge"],
        &["make"],
        &["make", "out", "1"],
        &["make", "out", "one", "2"],
        &["damage", "out", "1", "-2"],
        &["damage", "out", "1", "2", "3"],
        &["limits"],
        &["limits", "out", "1"],
        &["samples"],
        &["samples", "out", "1"],
    ];
    for words in wrong {
        let output = run(words, &[]);
        assert_eq!(output.status.code(), Some(2), "{words:?}");
        assert!(output.stdout.is_empty());
        assert!(text(&output.stderr).starts_with("usage: "));
    }
}
