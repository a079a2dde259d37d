//! Starts of files made by hand, each up to a field of another kind, and whole
//! files: the paper's inverter, its NAND and one with every kind of field.

use crate::builder::{FileBuilder, N, P};

pub fn nothing() -> FileBuilder {
    FileBuilder::default()
}

pub fn two_inputs() -> FileBuilder {
    FileBuilder::inputs(2)
}

pub fn with_type() -> FileBuilder {
    two_inputs().inverter()
}

/// List 1 fits the inverter, list 2 has a node and list 3 a label past it, list 4
/// a node past it and a label that fits.
pub fn with_bridges() -> FileBuilder {
    with_type()
        .bridge(1, 0, 0, 1)
        .bridge(2, 0, 0, 3)
        .bridge(3, 1, 0, 1)
        .bridge(4, 1, 3, 0)
}

pub fn with_instance() -> FileBuilder {
    with_bridges().instance(1, 0, &[1])
}

pub fn with_vector() -> FileBuilder {
    with_instance().vectors(&["01"])
}

pub fn with_types(count: usize) -> FileBuilder {
    two_inputs().times(count, FileBuilder::inverter)
}

/// All edges are p-channel, so the type is not complementary.
pub fn with_edges(count: usize) -> FileBuilder {
    let file = two_inputs().field(2, &[2, 2, 1]);
    file.times(count, |file| file.field(3, &[1, 2, 0]))
}

pub fn with_many_bridges(count: usize) -> FileBuilder {
    with_type().times(count, |file| file.bridge(1, 0, 0, 1))
}

pub fn with_instances(count: usize) -> FileBuilder {
    with_bridges().times(count, |file| file.instance(1, 0, &[1]))
}

pub fn with_vectors(count: usize) -> FileBuilder {
    with_instance().times(count, |file| file.vectors(&["0X"]))
}

/// 2,048 faults: 8 lists of 253 and 4 inverters of 6. List 2 does not fit.
pub fn with_faults_2048() -> FileBuilder {
    with_type()
        .times(253, |file| file.bridge(1, 0, 0, 1))
        .times(3, |file| file.bridge(2, 0, 0, 3))
        .times(8, |file| file.instance(1, 1, &[1]))
        .times(4, |file| file.instance(1, -1, &[1]))
}

/// A type whose output is joined to nothing while its label is 1, at offset 5.
pub fn broken_type() -> FileBuilder {
    two_inputs().field(2, &[2, 2, 1]).field(3, &[1, 2, 0])
}

/// The paper's example of 42 bytes.
pub fn inverter_file() -> FileBuilder {
    FileBuilder::inputs(1)
        .inverter()
        .instance(1, -1, &[1])
        .vectors(&["0", "1", "X"])
}

/// The paper's NAND with all its faults.
pub fn nand_under(vectors: &[&str]) -> FileBuilder {
    two_inputs()
        .nand()
        .instance(1, -1, &[1, 2])
        .vectors(vectors)
}

/// Every tag, edge fields with one to four labels and a repeated one, pass transistors
/// of both channels, both kinds of bridge, every kind of list choice and of reference,
/// every vector byte.
pub fn every_kind_file() -> FileBuilder {
    FileBuilder::inputs(3)
        .inverter()
        .module(3, 2, 2, &[(1, 2, &[0, 1, 0]), (2, 3, &[0]), (3, 0, &[1])])
        .field(2, &[5, 3, 4])
        .field(3, &[1, 2, 0, 1])
        .field(3, &[2, 3, 2, 3, 2, 2])
        .field(3, &[3, 4, 0])
        .field(3, &[4, 0, 1])
        .pass(0, 5, N, 2)
        .pass(2, 1, P, 0)
        .field(3, &[5, 3, 3])
        .bridge(127, 0, 5, 0)
        .bridge(1, 1, 3, 1)
        .bridge(127, 1, 4, 3)
        .bridge(1, 0, 2, 3)
        .instance(1, -1, &[1])
        .instance(2, 1, &[-1, 3])
        .instance(3, 127, &[2, -2, -1, 2])
        .instance(1, 0, &[-3])
        .vectors(&["0X1", "10X", "111"])
}
