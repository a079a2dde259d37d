//! Sample circuits for newcomers: small files by hand, each of which shows one
//! thing, and a full-size one. `circuits/README.md` of the project explains them. All
//! have a field for each edge, but for one that shows what an old file is like.

use crate::builder::{EdgeRow, FileBuilder, NamedFile, CARRY, N, P, SUM};
use crate::make::full_circuit;
use crate::random::Random;
use crate::starts::{inverter_file, nand_under, nothing, two_inputs};
use crate::write::{bytes_of, fields_of};

/// A seed that gives 64 inputs too, and X for a quarter of the vectors' bytes.
const FULL_SEED: u64 = 14;

/// Every sample, each name once, the same on every run.
pub fn sample_files() -> Vec<NamedFile> {
    let samples = [
        ("inverter", inverter_file()),
        ("nand", nand()),
        ("grouped", grouped()),
        ("reconvergent", reconvergent()),
        ("both_ends", both_ends()),
        ("floating", floating()),
        ("tied", tied()),
        ("driven", driven()),
        ("unfixed", unfixed()),
        ("guessed", guessed()),
        ("outputs", outputs()),
        ("nor", nor()),
        ("repeated", repeated()),
        ("fillings", fillings()),
        ("mux", mux()),
        ("series", series()),
        ("adder", adder()),
        ("full", full()),
    ];
    let named = |(name, file)| NamedFile::new(name, file);
    samples.into_iter().map(named).collect()
}

const NAND_VECTORS: &[&str] = &["00", "01", "10", "11", "0X", "1X", "XX"];

fn nand() -> FileBuilder {
    nand_under(NAND_VECTORS)
}

/// The same as an old file: both p-channel edges are in one field.
fn grouped() -> FileBuilder {
    two_inputs()
        .grouped_nand()
        .instance(1, -1, &[1, 2])
        .vectors(NAND_VECTORS)
}

/// An inverter, then a NAND of the same input and the inverter's output.
fn reconvergent() -> FileBuilder {
    FileBuilder::inputs(1)
        .inverter()
        .nand()
        .instance(1, 0, &[1])
        .instance(2, -1, &[1, -1])
        .vectors(&["0", "1", "X"])
}

/// Two of three rows are found, but one of two classes.
fn both_ends() -> FileBuilder {
    listed_nand(&[(2, 3), (3, 2), (0, 3)], &["00", "01", "11"])
}

/// Node 3 is joined to supply under 10 and to ground under 01; under 00, after
/// each, it is joined to no rail.
fn floating() -> FileBuilder {
    listed_nand(&[(2, 3), (0, 3), (1, 3)], &["10", "00", "01", "00"])
}

/// Both labels on one input: they are one class with each node.
fn tied() -> FileBuilder {
    FileBuilder::inputs(1)
        .nand()
        .instance(1, -1, &[1, 1])
        .vectors(&["0", "1", "X"])
}

/// The NAND's output to ground, listed at the NAND and again at the inverter that
/// it drives; between the two a bridge that no vector finds.
fn driven() -> FileBuilder {
    FileBuilder::inputs(2)
        .nand()
        .inverter()
        .bridge(1, 0, 0, 2)
        .bridge(1, 0, 0, 3)
        .bridge(2, 1, 0, 0)
        .instance(1, 1, &[1, 2])
        .instance(2, 2, &[-1])
        .vectors(&["00", "01", "11"])
}

/// The second input is fixed by nobody.
fn unfixed() -> FileBuilder {
    nand_under(&["0X", "1X"])
}

/// The same with a guess in its place.
fn guessed() -> FileBuilder {
    nand_under(&["00", "10"])
}

/// A short to supply under vectors that have the output at 1 anyway.
fn outputs() -> FileBuilder {
    listed_nand(&[(1, 3)], &["00", "01", "10"])
}

/// A NAND whose user list has these bridges between nodes.
fn listed_nand(bridges: &[(u8, u8)], vectors: &[&str]) -> FileBuilder {
    let file = FileBuilder::inputs(2).nand();
    let add = |file: FileBuilder, &(first, second): &(u8, u8)| file.bridge(1, 0, first, second);
    bridges
        .iter()
        .fold(file, add)
        .instance(1, 1, &[1, 2])
        .vectors(vectors)
}

/// The first exercise: node 2 is between the p-channel transistors.
fn nor() -> FileBuilder {
    FileBuilder::inputs(2)
        .nor()
        .instance(1, -1, &[1, 2])
        .vectors(&["00", "01", "10", "11"])
}

/// The second exercise: six rows, some of them again what an earlier one is, in
/// a NAND whose labels are tied.
fn repeated() -> FileBuilder {
    FileBuilder::inputs(1)
        .nand()
        .bridge(1, 0, 0, 2)
        .bridge(1, 0, 2, 0)
        .bridge(1, 1, 2, 0)
        .bridge(1, 1, 2, 1)
        .bridge(1, 0, 2, 3)
        .bridge(1, 0, 0, 3)
        .instance(1, 1, &[1, 1])
        .vectors(&["0", "1"])
}

/// The third exercise: a vector with an X, then both its fillings.
fn fillings() -> FileBuilder {
    nand_under(&["1X", "10", "11"])
}

/// Not a where s is 1 and b where s is 0, by an inverter and four pass transistors. Node 2
/// carries not a, node 3 carries b. Both are joined to supply by one channel and to ground
/// by the other, so they are on neither side of the output. The inverter's n-channel
/// transistor says its channel too, since its ends 0 and 2 tell none.
pub fn mux() -> FileBuilder {
    FileBuilder::inputs(3)
        .field(2, &[4, 4, 3])
        .field(3, &[1, 2, 0])
        .pass(0, 2, N, 0)
        .pass(1, 3, N, 1)
        .pass(0, 3, P, 1)
        .pass(2, 4, N, 2)
        .pass(3, 4, P, 2)
        .instance(1, -1, &[1, 2, 3])
        .vectors(&["000", "001", "010", "011", "100", "101", "110", "111"])
        .vectors(&["0X1", "00X"])
}

/// A NAND of four, whose n-channel transistors are in series through nodes 3, 4 and 5.
const NAND_OF_FOUR: &[EdgeRow] = &[
    (1, 2, &[0]),
    (1, 2, &[1]),
    (1, 2, &[2]),
    (1, 2, &[3]),
    (2, 3, &[0]),
    (3, 4, &[1]),
    (4, 5, &[2]),
    (5, 0, &[3]),
];

/// An AND of four. The NAND has no faults, and the greatest distance from a rail: its
/// output's from ground under 1111. The inverter behind it has the one fault.
fn series() -> FileBuilder {
    FileBuilder::inputs(4)
        .module(5, 2, 4, NAND_OF_FOUR)
        .inverter()
        .bridge(1, 0, 0, 2)
        .instance(1, 0, &[1, 2, 3, 4])
        .instance(2, 1, &[-1])
        .vectors(&["1111", "0111", "XXXX"])
}

/// The thesis's full adder: the carry's complement drives the sum's.
fn adder() -> FileBuilder {
    FileBuilder::inputs(3)
        .module(6, 4, 3, CARRY)
        .module(8, 5, 4, SUM)
        .instance(1, -1, &[1, 2, 3])
        .instance(2, -1, &[1, 2, 3, -1])
        .vectors(&["000", "001", "010", "011", "100", "101", "110", "111"])
}

fn full() -> FileBuilder {
    let made = full_circuit(&mut Random::for_file(FULL_SEED, 0));
    nothing().raw(&bytes_of(&fields_of(&made.circuit)))
}
