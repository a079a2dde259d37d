//! How many types, bridges, instances, vectors and faults: at each limit, one below
//! and one past it, and vectors around the ends of 64-bit words.

use super::{named, NamedFile};
use crate::builder::FileBuilder;

const WORD_ENDS: [usize; 9] = [1, 63, 64, 65, 127, 128, 129, 192, 193];

/// What is counted, how many there may be, and the file with a count of them.
type Counted = (&'static str, usize, fn(usize) -> FileBuilder);

pub fn files() -> Vec<NamedFile> {
    let kinds: [Counted; 6] = [
        ("types", 16, types),
        ("bridges", 256, bridges),
        ("instances", 128, instances),
        ("vectors", 256, vectors),
        ("faults", 2_048, faults),
        ("faults-exhaustive-last", 2_048, faults_exhaustive_last),
    ];
    let mut files = Vec::new();
    for (name, most, file) in kinds {
        let counts = most - 1..=most + 1;
        files.extend(counts.map(|count| named(format!("{name}-{count}"), file(count))));
    }
    let word_ends = WORD_ENDS.iter();
    files.extend(word_ends.map(|&count| named(format!("vectors-{count}"), vectors(count))));
    files.extend(faults_of_many_instances());
    files
}

fn types(count: usize) -> FileBuilder {
    FileBuilder::inputs(1)
        .times(count, FileBuilder::inverter)
        .instance(count.min(16) as u8, -1, &[1])
        .vectors(&["0"])
}

fn bridges(count: usize) -> FileBuilder {
    FileBuilder::inputs(1)
        .inverter()
        .times(count, |file| file.bridge(127, 0, 2, 0))
        .instance(1, 127, &[1])
        .vectors(&["0"])
}

/// A chain, each instance with the output of the one before.
fn instances(count: usize) -> FileBuilder {
    let file = FileBuilder::inputs(1).inverter().instance(1, 0, &[1]);
    let chain = |file: FileBuilder, number: usize| file.instance(1, -1, &[-(number as i16)]);
    (1..count).fold(file, chain).vectors(&["0", "1"])
}

/// The vectors come in a turn of five, so a mark in another word shows.
fn vectors(count: usize) -> FileBuilder {
    let turn = ["0", "1", "X", "1", "0"];
    let file = FileBuilder::inputs(1).inverter().instance(1, -1, &[1]);
    (0..count).fold(file, |file, index| file.vectors(&[turn[index % 5]]))
}

/// Two instances with 880 faults, the most an exhaustive list has, two with a
/// list of 128, and the last with a list for the rest.
fn faults(count: usize) -> FileBuilder {
    let rest = count - 2 * 880 - 2 * 128;
    largest_type()
        .times(128, |file| file.bridge(1, 1, 31, 11))
        .times(rest, |file| file.bridge(2, 0, 31, 1))
        .times(2, |file| file.instance(1, -1, &[1; 12]))
        .times(2, |file| file.instance(1, 1, &[1; 12]))
        .instance(1, 2, &[1; 12])
        .vectors(&["0"])
}

/// Eight lists of 255, some of 1, and the 6 faults of an inverter.
fn faults_exhaustive_last(count: usize) -> FileBuilder {
    FileBuilder::inputs(1)
        .inverter()
        .times(255, |file| file.bridge(1, 0, 1, 2))
        .bridge(2, 0, 2, 1)
        .times(8, |file| file.instance(1, 1, &[1]))
        .times(count - 8 * 255 - 6, |file| file.instance(1, 2, &[1]))
        .instance(1, -1, &[1])
        .vectors(&["1"])
}

fn largest_type() -> FileBuilder {
    FileBuilder::inputs(1).module(31, 31, 12, &[(1, 31, &[0]), (31, 0, &[0])])
}

/// Totals of none, of the limit in as many instances as there may be, and past
/// what two bytes hold.
fn faults_of_many_instances() -> Vec<NamedFile> {
    let lists = |bridges: usize, instances: usize| {
        FileBuilder::inputs(1)
            .inverter()
            .times(bridges, |file| file.bridge(1, 0, 0, 2))
            .times(instances, |file| file.instance(1, 1, &[1]))
    };
    let idle = |file: FileBuilder| file.instance(1, 0, &[1]).vectors(&["0"]);
    let largest = largest_type().times(128, |file| file.instance(1, -1, &[1; 12]));
    vec![
        named("faults-0", idle(FileBuilder::inputs(1).inverter())),
        named("faults-2048-then-none", idle(lists(256, 8))),
        named(
            "faults-2048-in-128-instances",
            lists(16, 128).vectors(&["0"]),
        ),
        named(
            "faults-2064-in-129-instances",
            lists(16, 129).vectors(&["0"]),
        ),
        named("faults-32768-in-lists", lists(256, 128).vectors(&["0"])),
        named("faults-112640-exhaustive", largest.vectors(&["0"])),
    ]
}
