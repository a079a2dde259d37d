//! The grader called from Rust: says of a circuit file, by name or on standard input, how many classes its vectors find.
//! Its status is 0 where the file was graded, 1 where it was refused, and 2 where it could not be read or nothing could be printed.
use std::io::{Read, Write};
use std::process::ExitCode;

// As `include/togyamiru.h` has them, with what a caller owes.
const MOST_FAULTS: usize = 2048;
const WORDS_A_FAULT: usize = 4;

#[link(name = "togyamiru", kind = "static")]
extern "C" {
    fn togyamiru_grade(file: *const u8, file_length: usize, matrix: *mut u64, matrix_words: usize, classes: *mut u16, class_entries: usize, answer: *mut u64);
}

fn file_named(name: Option<&String>) -> std::io::Result<Vec<u8>> {
    let mut file = Vec::new();
    match name {
        Some(name) => std::fs::File::open(name)?.read_to_end(&mut file)?,
        None => std::io::stdin().read_to_end(&mut file)?,
    };
    Ok(file)
}

fn grade(file: &[u8]) -> [u64; 6] {
    let (mut matrix, mut classes, mut answer) = (vec![0; WORDS_A_FAULT * MOST_FAULTS], vec![0; MOST_FAULTS], [0; 6]);
    // SAFETY: the pointers are those of a slice, two vectors and an array that live through the call, each with its own length.
    unsafe { togyamiru_grade(file.as_ptr(), file.len(), matrix.as_mut_ptr(), matrix.len(), classes.as_mut_ptr(), classes.len(), answer.as_mut_ptr()) };
    answer
}

fn main() -> ExitCode {
    let name = std::env::args().nth(1);
    let file = match file_named(name.as_ref()) {
        Ok(file) => file,
        Err(error) => {
            eprintln!("found: cannot read {}: {error}", name.as_deref().unwrap_or("standard input"));
            return ExitCode::from(2);
        }
    };
    let (line, status) = match grade(&file) {
        [0, _, _, _, classes, found] => (format!("found {found} of {classes} classes"), 0),
        [number, place, ..] => (format!("refused {number} at {place}"), 1),
    };
    ExitCode::from(if writeln!(std::io::stdout(), "{line}").is_ok() { status } else { 2 })
}
