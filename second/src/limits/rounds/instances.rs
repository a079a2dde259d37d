//! The longest series among the instances of a file: first, last or between others, with
//! faults or without, beside shorter ones or behind what drives it.

use super::{named, with_chain, with_longest, NamedFile, Rail, LONGEST, PAIRS, RAILS};
use crate::builder::FileBuilder;

/// The place of the longest series, and of how many instances.
const PLACES: [[usize; 2]; 8] = [
    [1, 2],
    [2, 2],
    [1, 3],
    [2, 3],
    [3, 3],
    [1, 128],
    [64, 128],
    [128, 128],
];

/// What faults an instance has, and its choice.
type Choice = (&'static str, i8);

const NONE: Choice = ("none", 0);
const ALL: Choice = ("all", -1);
const LISTED: Choice = ("listed", 1);

/// As many types as there may be.
const LENGTHS: [u8; 16] = [
    15, 16, 17, 18, 19, 20, 21, 22, 23, 24, 25, 26, 27, 28, 29, 30,
];

pub fn files() -> Vec<NamedFile> {
    let mut files = Vec::new();
    for rail in RAILS {
        for [place, count] in PLACES {
            for own in [NONE, ALL, LISTED] {
                let others = [NONE, ALL].into_iter();
                files.extend(others.map(|others| longest(rail, [place, count], own, others)));
            }
        }
        files.extend(all_lengths(rail));
        files.extend(behind_inverters(rail));
        files.extend(behind_a_nand(rail));
    }
    files
}

/// Among inverters on the same input.
fn longest(rail: Rail, [place, count]: [usize; 2], own: Choice, others: Choice) -> NamedFile {
    let file = with_longest(FileBuilder::inputs(1), rail)
        .inverter()
        .bridge(1, 0, 0, 1);
    let instance = |file: FileBuilder, number: usize| match number {
        _ if number == place => file.instance(1, own.1, &[1]),
        _ => file.instance(2, others.1, &[1]),
    };
    let file = (1..=count).fold(file, instance);
    let (from, own, others) = (rail.name, own.0, others.0);
    let name = format!("rounds-longest-{place}-of-{count}-from-{from}-with-{own}-among-{others}");
    named(name, file.vectors(&["0", "1", "X"]))
}

/// An instance of each length on input 1, or the longest on input 2, which is not known.
fn all_lengths(rail: Rail) -> Vec<NamedFile> {
    let start = LENGTHS
        .into_iter()
        .fold(FileBuilder::inputs(2), |file, length| {
            with_chain(file, rail, length, "outward")
        });
    let rising: Vec<u8> = (1..=16).collect();
    let falling: Vec<u8> = (1..=16).rev().collect();
    let mut files = Vec::new();
    for (order, numbers) in [("rising", rising), ("falling", falling)] {
        for (what, input) in [("known", 1), ("not-known", 2)] {
            let source = |number: u8| if number == 16 { input } else { 1 };
            let instance =
                |file: FileBuilder, &number: &u8| file.instance(number, 0, &[source(number)]);
            let file = numbers.iter().fold(start.clone(), instance);
            let vector = format!("{}X", rail.on);
            let from = rail.name;
            let name = format!("rounds-lengths-{order}-from-{from}-the-longest-{what}");
            files.push(named(name, file.vectors(&[&vector])));
        }
    }
    files
}

/// The last of so many inverters in a row drives it.
fn behind_inverters(rail: Rail) -> Vec<NamedFile> {
    let mut files = Vec::new();
    for count in [1, 2, 127] {
        for letter in ["0", "1", "X"] {
            let file = with_longest(FileBuilder::inputs(1).inverter(), rail);
            let file = file.instance(1, 0, &[1]);
            let next = |file: FileBuilder, before: i16| file.instance(1, 0, &[-before]);
            let file = (1..count).fold(file, next);
            let file = file.instance(2, 0, &[-count]).vectors(&[letter]);
            let (from, letter) = (rail.name, letter.to_lowercase());
            let name = format!("rounds-behind-{count}-inverters-from-{from}-under-{letter}");
            files.push(named(name, file));
        }
    }
    files
}

/// With one input not known the output of a NAND may be known, or not.
fn behind_a_nand(rail: Rail) -> Vec<NamedFile> {
    let file = |vector: &&str| {
        let file = with_chain(FileBuilder::inputs(2).nand(), rail, LONGEST, "inward");
        let file = file.instance(1, -1, &[1, 2]).instance(2, 0, &[-1]);
        let (from, letters) = (rail.name, vector.to_lowercase());
        let name = format!("rounds-behind-a-nand-from-{from}-under-{letters}");
        named(name, file.vectors(&[vector]))
    };
    PAIRS.iter().map(file).collect()
}
