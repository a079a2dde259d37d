//! Files with bridges on the first, the last and neighbouring wires: their classes
//! are those of the wires by name, and as many as were counted by hand.

use std::collections::BTreeSet;

use second::circuit::Circuit;
use second::grade::Graded;
use second::limits::limit_files;
use second::read::read;

use crate::support::answer;
use crate::support::wires::{check_classes, wires_of, Wire};

/// An accepted file, by its name without `wires-` and `.cir`.
pub struct File {
    pub name: String,
    pub circuit: Circuit,
    pub graded: Graded,
}

pub fn files() -> Vec<File> {
    let mut files = Vec::new();
    for file in limit_files() {
        let name = file.name.strip_prefix("wires-");
        if let Some(name) = name.and_then(|name| name.strip_suffix(".cir")) {
            files.push(File {
                name: name.to_string(),
                circuit: read(&file.bytes).expect(name),
                graded: answer(&file.bytes).expect(name),
            });
        }
    }
    files
}

#[test]
fn classes_are_those_of_the_wires() {
    let files = files();
    assert_eq!(files.len(), 69);
    for file in files {
        check_classes(&file.circuit, &file.graded);
    }
}

/// How a name begins and ends, then rows and classes; the first that fits counts.
type Counted = (&'static str, &'static str, usize, u16);

/// The class 0-1, two for each input that is used, and for each instance its other
/// bridges with a node that is no rail: 3 of an inverter, 9 of a NAND, or 7 if its
/// labels are tied. With a rail and an output, the output's instance has the row.
const GATES: &[Counted] = &[
    ("inverters-", "on-input-1", 768, 1 + 2 + 3 * 128),
    ("inverters-", "on-input-64", 768, 1 + 2 + 3 * 128),
    ("inverters-", "on-inputs-in-turn", 768, 1 + 128 + 3 * 128),
    ("inverters-", "on-output-1", 768, 1 + 2 + 3 * 128),
    ("inverters-", "on-one-each", 768, 1 + 128 + 3 * 128),
    ("inverters-", "on-the-one-before", 768, 1 + 2 + 3 * 128),
    ("nands-", "on-those-before", 1_792, 1 + 4 + 9 * 128),
    ("nands-", "on-twins", 1_792, 1 + 128 + 7 + 9 * 127),
];

/// The second instance has in common with the first 0-1, two for each of eleven
/// sources, and two for the first one's output.
const ALL_OF_TWO: &[Counted] = &[
    ("o", "-in-instances-1-and-2", 1_760, 1_760 - 25),
    ("o", "-in-instances-64-and-65", 1_760, 1_760 - 25),
    ("o", "-in-instances-127-and-128", 1_760, 1_760 - 25),
];

/// 1,409: the class 0-1 and 11 of each instance. Two for each input that labels 0 and
/// 11 use. For each output that they use, as many as its instance does not list: none
/// of outputs 2 and 31, one of 3 and 30, two of others, which are 26 in 16.
const SIXTEEN: &[Counted] = &[
    ("o", "-on-input-64", 2_048, 1_409 + 2),
    ("o", "-on-inputs-in-turn", 2_048, 1_409 + 128),
    ("o3-o30-", "-on-the-one-before", 2_048, 1_409 + 2 + 127),
    ("o3-o30-", "-on-those-before", 2_048, 1_409 + 24 + 127),
    ("o3-o30-", "-on-twins", 2_048, 1_409 + 128 + 64),
    (
        "o2-to-o31-",
        "-on-the-one-before",
        2_048,
        1_409 + 2 + 8 * 26,
    ),
    ("o2-to-o31-", "-on-those-before", 2_048, 1_409 + 24 + 8 * 26),
    ("o2-to-o31-", "-on-twins", 2_048, 1_409 + 128 + 4 * 26),
    ("o", "-on-the-one-before", 2_048, 1_409 + 2),
    ("o", "-on-those-before", 2_048, 1_409 + 24),
    ("o", "-on-twins", 2_048, 1_409 + 128),
];

/// Each node of each instance is a wire; then two for each source of a label.
const NODES_AND_LABELS: &[Counted] = &[
    ("nodes-", "", 2_040, 2_040),
    ("labels-on-inputs-in-turn", "", 2_040, 2 * 64),
    ("labels-on-the-one-before", "", 2_040, 2 * 85),
    ("labels-on-those-before", "", 2_040, 2 * (85 + 11)),
    ("labels-on-twins", "-1-to-85", 2_040, 2 * 128),
    ("labels-on-twins", "-44-to-128", 2_040, 2 * 44),
    ("references-turned-round", "", 48, 2 * 12),
];

#[test]
fn classes_are_as_many_as_were_counted() {
    let all = [GATES, ALL_OF_TWO, SIXTEEN, NODES_AND_LABELS].concat();
    for File { name, graded, .. } in files() {
        let fits = |(start, end, ..): &&Counted| name.starts_with(start) && name.ends_with(end);
        let &(_, _, rows, classes) = all.iter().find(fits).expect(&name);
        assert_eq!(
            (graded.rows.len(), graded.classes),
            (rows, classes),
            "{name}"
        );
    }
}

/// Label l of instance 127 and label 11 - l of instance 128 are one wire.
#[test]
fn references_turned_round() {
    let files = files();
    let file = files
        .iter()
        .find(|file| file.name == "references-turned-round");
    let rows = &file.expect("the file is laid").graded.rows;
    let (one, other) = rows.split_at(24);
    for (row, count) in one.iter().zip(1..) {
        assert_eq!((row.instance, row.class), (127, count));
    }
    for (row, same) in other.chunks(2).flatten().zip(one.chunks(2).rev().flatten()) {
        assert_eq!((row.instance, row.class), (128, same.class));
        assert_eq!(row.bridge.second, 11 - same.bridge.second);
    }
}

/// Every input and every output is once in one file with each rail.
#[test]
fn all_inputs_and_outputs_meet_in_one_file() {
    let files = files();
    let file = files
        .iter()
        .find(|file| file.name == "inverters-on-one-each");
    let File {
        circuit, graded, ..
    } = file.expect("the file is laid");
    let met: BTreeSet<BTreeSet<Wire>> = graded
        .rows
        .iter()
        .map(|row| wires_of(circuit, row))
        .collect();
    for rail in [Wire::Ground, Wire::Supply] {
        let inputs = (1..=64).map(Wire::Input);
        for wire in inputs.chain((1..=128).map(Wire::Output)) {
            assert!(met.contains(&BTreeSet::from([rail, wire])), "{wire:?}");
        }
    }
}
