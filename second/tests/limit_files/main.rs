//! The files that `limits` lays: names, numbers reached, and what the paper says
//! of each, by a table for one of every family and by rules for whole families.

mod expected;
mod families;
mod meetings;
mod packings;
mod passes;
mod rounds;
mod settings;
#[path = "../support/mod.rs"]
mod support;
mod wires;

use std::collections::BTreeSet;

use second::limits::limit_files;
use support::refusal;

#[test]
fn names_are_plain_and_unique() {
    let files = limit_files();
    let names: BTreeSet<&str> = files.iter().map(|file| file.name.as_str()).collect();
    assert_eq!(names.len(), files.len());
    for name in names {
        let stem = name.strip_suffix(".cir").expect("the name ends in .cir");
        let plain = |c: char| c.is_ascii_lowercase() || c.is_ascii_digit() || c == '-';
        assert!(!stem.is_empty() && stem.chars().all(plain), "{name}");
    }
    assert_eq!(limit_files(), files, "the same on every run");
}

#[test]
fn every_number_is_reached() {
    let mut tally = [0; 15];
    let files = limit_files();
    for file in &files {
        let number = refusal(&file.bytes).map_or(0, |(number, _)| number);
        tally[usize::from(number)] += 1;
    }
    // As the README says.
    assert_eq!((files.len(), tally[0]), (7_090, 2_466));
    assert!(tally.iter().all(|&count| count >= 17), "{tally:?}");
}
