//! Asking for the answers of files built by hand, for the tests.

#![allow(dead_code)] // Each test file uses its own part of these.

use second::builder::{FileBuilder, NamedFile};
use second::circuit::Kind;
use second::grade::{grade, Graded};
use second::limits::limit_files;
use second::refusal::Refusal;
use second::samples::sample_files;

pub mod distances;
pub mod nets;
pub mod wires;

/// Grading a file that is accepted.
pub trait Accepted {
    fn graded(&self) -> Graded;
}

impl Accepted for FileBuilder {
    fn graded(&self) -> Graded {
        answer(&self.bytes).expect("the file is accepted")
    }
}

pub fn answer(bytes: &[u8]) -> Result<Graded, Refusal> {
    grade(bytes, 8192, 2048)
}

/// The number and place of a refusal, or none if the file is graded.
pub fn refusal(bytes: &[u8]) -> Option<(u8, usize)> {
    answer(bytes)
        .err()
        .map(|refusal| (refusal.number, refusal.place))
}

/// The bytes of one of the files that `limits` lays.
pub fn limit_file(name: &str) -> Vec<u8> {
    named_file(limit_files(), name)
}

/// The bytes of one of the files that `samples` lays.
pub fn sample_file(name: &str) -> Vec<u8> {
    named_file(sample_files(), name)
}

fn named_file(files: Vec<NamedFile>, name: &str) -> Vec<u8> {
    let file = files.into_iter().find(|file| file.name == name);
    file.unwrap_or_else(|| panic!("{name} is not laid")).bytes
}

/// The digits of the one row of an instance that is this bridge as written.
pub fn digits(graded: &Graded, instance: usize, kind: Kind, first: u8, second: u8) -> String {
    let row = graded
        .rows
        .iter()
        .find(|row| {
            let bridge = (row.bridge.kind, row.bridge.first, row.bridge.second);
            row.instance == instance && bridge == (kind, first, second)
        })
        .expect("the row is there");
    let digit = |&mark: &bool| if mark { '1' } else { '0' };
    row.marks.iter().map(digit).collect()
}
