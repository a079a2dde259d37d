//! References around the ends of their ranges, in the first, the third and the
//! 128th instance and at each label, and every number of references.

use super::{named, NamedFile};
use crate::builder::FileBuilder;

/// Of three primary inputs and instances 1 to 4.
const TRIED: [i16; 29] = [
    0, 1, 2, 3, 4, 5, 63, 64, 65, 127, 128, 255, 256, 257, 32_767, -1, -2, -3, -4, -5, -127, -128,
    -129, -253, -255, -256, -257, -32_767, -32_768,
];

pub fn files() -> Vec<NamedFile> {
    let mut files = Vec::new();
    for reference in TRIED {
        for number in [1, 3] {
            let name = format!("reference-{}-in-instance-{number}", signed(reference));
            files.push(named(name, in_instance(number, reference)));
        }
        for label in 0..4 {
            let name = format!("reference-{}-at-label-{label}", signed(reference));
            files.push(named(name, at_label(label, reference)));
        }
    }
    files.extend(largest_numbers());
    files.extend(reference_counts());
    files
}

fn signed(number: i16) -> String {
    let sign = if number < 0 { "minus-" } else { "" };
    format!("{sign}{}", number.unsigned_abs())
}

/// Instance `number` of four inverters has the reference, the others an input.
fn in_instance(number: usize, reference: i16) -> FileBuilder {
    let file = FileBuilder::inputs(3).inverter();
    let instance = |file: FileBuilder, at: usize| {
        file.instance(1, -1, &[if at == number { reference } else { 1 }])
    };
    (1..=4).fold(file, instance).vectors(&["010", "1X1"])
}

/// Instance 3 of four has four labels, one of them with the reference.
fn at_label(label: usize, reference: i16) -> FileBuilder {
    let edges: [(u8, u8, &[u8]); 5] = [
        (1, 2, &[0, 1, 2, 3]),
        (2, 3, &[0]),
        (3, 4, &[1]),
        (4, 5, &[2]),
        (5, 0, &[3]),
    ];
    let mut references = [1, -1, 3, -2];
    references[label] = reference;
    FileBuilder::inputs(3)
        .inverter()
        .module(5, 2, 4, &edges)
        .times(2, |file| file.instance(1, 0, &[2]))
        .instance(2, -1, &references)
        .instance(1, 0, &[2])
        .vectors(&["010", "1X1"])
}

/// The largest inputs and instances that there can be, and one past them.
fn largest_numbers() -> Vec<NamedFile> {
    let vector = "01".repeat(32);
    let tried = [63, 64, 65, -126, -127, -128, -129];
    tried
        .iter()
        .map(|&reference| {
            let file = FileBuilder::inputs(64)
                .inverter()
                .times(127, |file| file.instance(1, 0, &[63]))
                .instance(1, -1, &[reference])
                .vectors(&[vector.as_str()]);
            let name = format!("reference-{}-in-instance-128", signed(reference));
            named(name, file)
        })
        .collect()
}

/// One to twelve references for types with one to twelve labels.
fn reference_counts() -> Vec<NamedFile> {
    let mut files = Vec::new();
    for labels in 1..=12 {
        for count in 1..=12 {
            let file = FileBuilder::inputs(1)
                .module(2, 2, labels, &[(1, 2, &[0]), (2, 0, &[0])])
                .instance(1, -1, &vec![1; count])
                .vectors(&["0"]);
            files.push(named(format!("references-{count}-for-k{labels}"), file));
        }
    }
    files
}
