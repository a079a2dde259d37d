//! Bridges of many instances on wires with the first, the last and neighbouring
//! numbers. Where wires fall together or apart by their numbers, class numbers show
//! it. All files have 64 inputs and 128 instances.

use super::{named, NamedFile};
use crate::builder::{EdgeRow, FileBuilder};

/// A name, and what a label of an instance is tied to, as a place in the line of all
/// sources: the 64 inputs, then the outputs.
type Sources = (&'static str, fn(usize, usize) -> usize);

const INPUT_1: Sources = ("input-1", |_, _| 1);
const INPUT_64: Sources = ("input-64", |_, _| 64);
const INPUTS: Sources = ("inputs-in-turn", |number, label| {
    (number - 1 + label) % 64 + 1
});
const OUTPUT_1: Sources = ("output-1", |number, _| 63 + number.min(2));
/// Inputs, and from instance 65 on outputs.
const OWN: Sources = ("one-each", |number, _| number);
/// For instance 1 the source before is input 64.
const BEFORE: Sources = ("the-one-before", |number, _| 63 + number);
const ALL_BEFORE: Sources = ("those-before", |number, label| 63 + number - label);
/// An input and the output of the same number in turn.
const TWINS: Sources = ("twins", |number, label| match number {
    1 => 64,
    _ => (number - 1).min(64) + label % 2 * 64,
});

/// Output nodes of types with nodes up to 31 and 12 labels.
const OUTPUTS: [u8; 16] = [2, 3, 4, 7, 8, 9, 15, 16, 17, 18, 23, 24, 25, 29, 30, 31];

/// The list of those instances that have a user list.
const LIST: i8 = 127;

/// Kind, first and second.
type BridgeRow = [u8; 3];

/// In 128 instances these are 2,048.
const SIXTEEN: [BridgeRow; 16] = [
    [0, 0, 1],
    [0, 0, 2],
    [0, 2, 1],
    [0, 31, 0],
    [0, 1, 31],
    [0, 0, 3],
    [0, 30, 0],
    [0, 30, 31],
    [1, 0, 0],
    [1, 1, 0],
    [1, 0, 11],
    [1, 1, 11],
    [1, 2, 0],
    [1, 31, 11],
    [1, 3, 11],
    [1, 30, 0],
];

/// The first and the last of some instances.
type Part = (usize, usize);

/// A bridge of a node.
type OfNode = fn(u8) -> BridgeRow;

const WITH_GROUND: OfNode = |node| [0, 0, node];
const WITH_SUPPLY: OfNode = |node| [0, node, 1];
const WITH_LABEL: OfNode = |node| [1, node, 11];
const WITH_NEXT: OfNode = |node| [0, node, 2 + (node - 1) % 30];

pub fn files() -> Vec<NamedFile> {
    let mut files = gates();
    files.extend(all_of_two());
    files.extend(sixteen_of_each());
    files.extend(nodes());
    files.extend(labels());
    files.push(turned_round());
    files
}

fn reference(place: usize) -> i16 {
    match place {
        0..=64 => place as i16,
        _ => 64 - place as i16,
    }
}

fn references(sources: Sources, number: usize, labels: usize) -> Vec<i16> {
    let source = |label| reference((sources.1)(number, label));
    (0..labels).map(source).collect()
}

/// 128 instances, whose types come in turn, and vectors with both values and X.
fn with_instances(
    file: FileBuilder,
    types: usize,
    choice: impl Fn(usize) -> i8,
    references: impl Fn(usize) -> Vec<i16>,
) -> FileBuilder {
    let instance = |file: FileBuilder, number: usize| {
        let type_number = (number - 1) % types + 1;
        file.instance(type_number as u8, choice(number), &references(number))
    };
    let vectors = [
        "01".repeat(32),
        "0011".repeat(16),
        "1".repeat(63) + "X",
        "X".to_string() + &"0".repeat(63),
    ];
    let vectors = vectors.each_ref().map(String::as_str);
    (1..=128).fold(file, instance).vectors(&vectors)
}

/// All faults of 128 inverters, and of 128 NANDs.
fn gates() -> Vec<NamedFile> {
    let all = |file: FileBuilder, labels: usize, sources: Sources| {
        let references = |number| references(sources, number, labels);
        with_instances(file, 1, |_| -1, references)
    };
    let mut files = Vec::new();
    for sources in [INPUT_1, INPUT_64, INPUTS, OUTPUT_1, OWN, BEFORE] {
        let file = all(FileBuilder::inputs(64).inverter(), 1, sources);
        files.push(named(format!("wires-inverters-on-{}", sources.0), file));
    }
    for sources in [ALL_BEFORE, TWINS] {
        let file = all(FileBuilder::inputs(64).nand(), 2, sources);
        files.push(named(format!("wires-nands-on-{}", sources.0), file));
    }
    files
}

/// Types that go from supply through all nodes up to 31 to ground, switched by the
/// last of 12 labels, with these outputs.
fn rings(outputs: &[u8]) -> FileBuilder {
    let next = |node: u8| (node, (node + 1) % 32, &[11][..]);
    let edges: Vec<EdgeRow> = (1..=31).map(next).collect();
    let add = |file: FileBuilder, &output: &u8| file.module(31, output, 12, &edges);
    outputs.iter().fold(FileBuilder::inputs(64), add)
}

/// All faults of two neighbours, which have eleven sources in common.
fn all_of_two() -> Vec<NamedFile> {
    let mut files = Vec::new();
    for output in [2, 3, 16, 30, 31] {
        for first in [1, 64, 127] {
            let choice = |number| -i8::from(number == first || number == first + 1);
            let references = |number| references(ALL_BEFORE, number, 12);
            let file = with_instances(rings(&[output]), 1, choice, references);
            let neighbours = format!("{first}-and-{}", first + 1);
            let name = format!("wires-o{output}-all-in-instances-{neighbours}");
            files.push(named(name, file));
        }
    }
    files
}

fn with_list(file: FileBuilder, bridges: &[BridgeRow]) -> FileBuilder {
    let add = |file: FileBuilder, &[kind, first, second]: &BridgeRow| {
        file.bridge(LIST as u8, kind, first, second)
    };
    bridges.iter().fold(file, add)
}

/// Some of the instances take these bridges, the others none.
fn listed(
    outputs: &[u8],
    bridges: &[BridgeRow],
    (first, last): Part,
    sources: Sources,
) -> FileBuilder {
    let choice = |number| LIST * i8::from((first..=last).contains(&number));
    let references = |number| references(sources, number, 12);
    let file = with_list(rings(outputs), bridges);
    with_instances(file, outputs.len(), choice, references)
}

/// 2,048 rows, 16 of each instance.
fn sixteen_of_each() -> Vec<NamedFile> {
    let turns: [(&str, &[u8]); 5] = [
        ("o2", &[2]),
        ("o31", &[31]),
        ("o2-o31", &[2, 31]),
        ("o3-o30", &[3, 30]),
        ("o2-to-o31", &OUTPUTS),
    ];
    let mut files = Vec::new();
    for (turn, outputs) in turns {
        for sources in [INPUT_64, INPUTS, BEFORE, ALL_BEFORE, TWINS] {
            let file = listed(outputs, &SIXTEEN, (1, 128), sources);
            let name = format!("wires-{turn}-sixteen-in-each-on-{}", sources.0);
            files.push(named(name, file));
        }
    }
    files
}

/// Each node but the rails, with a rail, with a label or with the next node.
fn nodes() -> Vec<NamedFile> {
    let halves = &[(1, 68), (61, 128)][..];
    let quarters = &[(1, 34), (35, 68), (69, 102), (95, 128)][..];
    let pairs: [(&str, &[OfNode], &[Part]); 5] = [
        ("ground", &[WITH_GROUND], halves),
        ("supply", &[WITH_SUPPLY], halves),
        ("label-11", &[WITH_LABEL], halves),
        ("the-next", &[WITH_NEXT], halves),
        ("both", &[WITH_GROUND, WITH_NEXT], quarters),
    ];
    let mut files = Vec::new();
    for (other, bridges, parts) in pairs {
        let of_node = |node: u8| bridges.iter().map(move |bridge| bridge(node));
        let bridges: Vec<BridgeRow> = (2..=31).flat_map(of_node).collect();
        for &(first, last) in parts {
            let file = listed(&OUTPUTS, &bridges, (first, last), ALL_BEFORE);
            let name = format!("wires-nodes-with-{other}-in-instances-{first}-to-{last}");
            files.push(named(name, file));
        }
    }
    files
}

/// Both rails with each label.
fn at_rails() -> Vec<BridgeRow> {
    let both = |label| [[1, 0, label], [1, 1, label]];
    (0..12).flat_map(both).collect()
}

/// Both rails with each label of 85 instances; no driver lists its output.
fn labels() -> Vec<NamedFile> {
    let mut files = Vec::new();
    for sources in [INPUTS, BEFORE, ALL_BEFORE, TWINS] {
        for (first, last) in [(1, 85), (44, 128)] {
            let file = listed(&[31], &at_rails(), (first, last), sources);
            let on = sources.0;
            let name = format!("wires-labels-on-{on}-in-instances-{first}-to-{last}");
            files.push(named(name, file));
        }
    }
    files
}

/// The last two instances have the same references, one from the other end.
fn turned_round() -> NamedFile {
    let sources = [64, 63, 2, 1, -1, -2, -63, -64, -65, -124, -125, -126];
    let references = |number| match number {
        127 => sources.to_vec(),
        128 => sources.into_iter().rev().collect(),
        _ => references(INPUTS, number, 12),
    };
    let choice = |number| LIST * i8::from(number > 126);
    let file = with_list(rings(&[2]), &at_rails());
    let file = with_instances(file, 1, choice, references);
    named("wires-references-turned-round", file)
}
