//! How far nodes are from the rail that they are joined to: series of every length from
//! either rail, the longest among several instances, and series with other ways beside
//! them, across the output or by pass transistors.

mod chains;
mod instances;
mod paths;

use std::iter::once;

use super::{named, NamedFile};
use crate::builder::{EdgeRow, FileBuilder};

pub fn files() -> Vec<NamedFile> {
    [chains::files(), instances::files(), paths::files()].concat()
}

/// The edges of the longest series, which goes through all nodes but the other rail.
const LONGEST: u8 = 30;

/// A rail, and the letter that turns on the channel of its side of the output.
#[derive(Clone, Copy)]
struct Rail {
    name: &'static str,
    node: u8,
    on: &'static str,
}

const RAILS: [Rail; 2] = [
    Rail {
        name: "ground",
        node: 0,
        on: "1",
    },
    Rail {
        name: "supply",
        node: 1,
        on: "0",
    },
];

/// In which order the edges of a series stand: from the rail on, or towards it. Where each
/// edge feeds the next one, a sweep over them that uses at once what it adds is too fast.
const ORDERS: [&str; 2] = ["outward", "inward"];

/// All vectors of two inputs.
const PAIRS: [&str; 9] = ["00", "01", "10", "11", "0X", "1X", "X0", "X1", "XX"];

/// The nodes from a rail through so many edges. Whichever is the output, those before it
/// are on the rail's side of it and those behind it on the other.
fn nodes_from(rail: Rail, length: u8) -> Vec<u8> {
    let highest = length + 1;
    match rail.node {
        0 => once(0).chain((2..=highest).rev()).collect(),
        _ => (1..=highest).collect(),
    }
}

/// The last of these nodes.
fn output_of(rail: Rail, length: u8) -> u8 {
    nodes_from(rail, length)[usize::from(length)]
}

/// An edge between each node and the next, at one label.
fn series<'a>(nodes: &[u8], label: &'a [u8]) -> Vec<EdgeRow<'a>> {
    let edge = |ends: &[u8]| (ends[0], ends[1], label);
    nodes.windows(2).map(edge).collect()
}

/// An inverter with a series from this rail to the output, and one edge from the other.
fn with_chain(file: FileBuilder, rail: Rail, length: u8, order: &str) -> FileBuilder {
    let (mut nodes, output) = (nodes_from(rail, length), output_of(rail, length));
    if order == "inward" {
        nodes.reverse();
    }
    let mut edges = series(&nodes, &[0]);
    edges.push((1 - rail.node, output, &[0]));
    file.module(length + 1, output, 1, &edges)
}

fn with_longest(file: FileBuilder, rail: Rail) -> FileBuilder {
    with_chain(file, rail, LONGEST, "outward")
}
