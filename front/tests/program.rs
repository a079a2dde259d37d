//! The commands as they are called: what they print, where, and their status.

use std::fs;
use std::path::{Path, PathBuf};
use std::process::{Command, Stdio};

const INVERTER: &str =
    "inputs 1\ntype 1 2 2 1\nedge 1 2 0\nedge 0 2 0\ninstance 1 1 -1 1\nvector 1 0\n";

/// A folder of a test's own, with files of these names and contents.
fn folder(name: &str, files: &[(&str, &[u8])]) -> PathBuf {
    let folder = Path::new(env!("CARGO_TARGET_TMPDIR")).join(name);
    fs::create_dir_all(&folder).unwrap();
    for (name, contents) in files {
        fs::write(folder.join(name), contents).unwrap();
    }
    folder
}

/// Status, standard output and standard error of a call in a folder.
fn call(folder: &Path, words: &[&str], input: Option<&str>) -> (i32, Vec<u8>, String) {
    let mut command = Command::new(env!("CARGO_BIN_EXE_front"));
    command.current_dir(folder).args(words);
    command.stdin(input.map_or(Stdio::null(), |name| {
        Stdio::from(fs::File::open(folder.join(name)).unwrap())
    }));
    let output = command.output().unwrap();
    let message = String::from_utf8(output.stderr).unwrap();
    (output.status.code().unwrap(), output.stdout, message)
}

#[test]
fn make_writes_the_file_or_nothing() {
    let wrong = INVERTER
        .replace("edge 0 2 0", "edge 0 2")
        .replace("vector 1", "vector 2");
    let many = "word\n".repeat(12);
    let files: [(&str, &[u8]); 3] = [
        ("good", INVERTER.as_bytes()),
        ("wrong", wrong.as_bytes()),
        ("many", many.as_bytes()),
    ];
    let folder = folder("make", &files);
    let made = call(&folder, &["make", "good"], None);
    assert_eq!((made.0, made.1.len(), made.2.as_str()), (0, 34, ""));
    assert_eq!(call(&folder, &["make"], Some("good")), made);
    let (status, printed, message) = call(&folder, &["make", "wrong"], None);
    assert_eq!((status, printed), (2, vec![]));
    let lines =
        "togyamiru: wrong: line 4: found the end of the line, expected a label, a number from 0 to 255
togyamiru: wrong: line 6: found `2`, expected `1`, the number of the next vector
";
    assert_eq!(message, lines);
    let (status, printed, message) = call(&folder, &["make"], Some("many"));
    assert_eq!((status, printed, message.lines().count()), (2, vec![], 11));
    assert!(message.starts_with("togyamiru: standard input: line 1: found `word`, "));
    assert!(message.ends_with("togyamiru: standard input: 2 more lines are wrong\n"));
}

#[test]
fn explain_prints_words_for_refused_files_alone() {
    let good = front::text::make(INVERTER.as_bytes()).unwrap();
    let files: [(&str, &[u8]); 3] = [("good", &good), ("empty", b""), ("cut", &good[..8])];
    let folder = folder("explain", &files);
    assert_eq!(
        call(&folder, &["explain", "good"], None),
        (0, vec![], String::new())
    );
    assert_eq!(
        call(&folder, &["explain"], Some("good")),
        (0, vec![], String::new())
    );
    let words = "togyamiru: empty: refused 14 at 0: the end of the file
togyamiru: empty: rule: a file has the number of inputs, at least one instance and at least one vector.
togyamiru: empty: here: the file is empty.
";
    let (status, printed, message) = call(&folder, &["explain", "empty"], None);
    assert_eq!((status, message.as_str()), (1, ""));
    assert_eq!(String::from_utf8(printed).unwrap(), words);
    let (status, printed, _) = call(&folder, &["explain", "cut", "good", "empty"], None);
    let printed = String::from_utf8(printed).unwrap();
    assert_eq!((status, printed.lines().count()), (1, 6));
    assert!(printed.starts_with("togyamiru: cut: refused 2 at 5: field 2, bytes 5 to 7\n"));
    assert!(printed.ends_with(words));
}

#[test]
fn what_cannot_be_read_or_written_is_told() {
    let folder = folder("fails", &[("good", INVERTER.as_bytes()), ("empty", b"")]);
    for command in ["make", "explain"] {
        let missing = "togyamiru: missing: No such file or directory\n".to_string();
        assert_eq!(
            call(&folder, &[command, "missing"], None),
            (2, vec![], missing)
        );
        let directory = "togyamiru: .: Is a directory\n".to_string();
        assert_eq!(call(&folder, &[command, "."], None), (2, vec![], directory));
    }
    let (status, printed, _) = call(&folder, &["explain", "missing", "empty"], None);
    assert_eq!((status, printed.is_empty()), (2, false));
    for words in [&[][..], &["make", "a", "b"], &["explian", "a"]] {
        let (status, printed, message) = call(&folder, words, None);
        assert_eq!((status, printed), (2, vec![]));
        assert!(message.starts_with("usage: front make [TEXT]\n"));
    }
    let mut full = Command::new(env!("CARGO_BIN_EXE_front"));
    full.current_dir(&folder).args(["make", "good"]);
    full.stdout(
        fs::OpenOptions::new()
            .write(true)
            .open("/dev/full")
            .unwrap(),
    );
    let output = full.output().unwrap();
    assert_eq!(output.status.code(), Some(2));
    assert_eq!(
        output.stderr,
        b"togyamiru: standard output: No space left on device\n"
    );
}
