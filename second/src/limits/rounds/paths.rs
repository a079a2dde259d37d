//! Series with other ways to their nodes: a shortcut at a label of its own, which may be
//! on or not; a path that goes on behind the output, and one beside it; and pass
//! transistors from node to node in an order that the numbers do not tell.

use std::iter::once;

use super::{named, nodes_from, output_of, series, NamedFile, Rail, LONGEST, ORDERS, PAIRS, RAILS};
use crate::builder::{FileBuilder, N, P};

/// The edges before the output on the paths that go on behind it.
const BEFORE: [u8; 9] = [1, 2, 3, 14, 15, 16, 27, 28, 29];

/// How far on, in the circle of 30 nodes, the next node of a path is; these come round to
/// all of them.
const STEPS: [u16; 8] = [1, 7, 11, 13, 17, 19, 23, 29];

pub fn files() -> Vec<NamedFile> {
    let mut files = Vec::new();
    for rail in RAILS {
        let all_on = rail.on.repeat(2);
        files.extend((2..LONGEST).map(|to| shortcut(rail, to, &all_on)));
        let not_all_on = PAIRS.into_iter().filter(|&vector| vector != all_on);
        files.extend(not_all_on.map(|vector| shortcut(rail, 15, vector)));
        for vector in PAIRS {
            files.extend(BEFORE.map(|before| across(rail, before, vector)));
        }
        for step in STEPS {
            files.extend(ORDERS.map(|order| by_passes(rail, step, order)));
        }
    }
    files
}

/// The longest series at label 0, and from its rail one edge at label 1 to the node that
/// is so many edges on.
fn shortcut(rail: Rail, to: u8, vector: &str) -> NamedFile {
    let (nodes, output) = (nodes_from(rail, LONGEST), output_of(rail, LONGEST));
    let mut edges = series(&nodes, &[0]);
    edges.push((rail.node, nodes[usize::from(to)], &[1]));
    edges.push((1 - rail.node, output, &[0]));
    let file = FileBuilder::inputs(2)
        .module(LONGEST + 1, output, 2, &edges)
        .instance(1, -1, &[1, 2])
        .vectors(&[vector]);
    let (from, letters) = (rail.name, vector.to_lowercase());
    let name = format!("rounds-shortcut-to-{to}-from-{from}-under-{letters}");
    named(name, file)
}

/// A series at label 0 from the rail to the output, beside it an edge at label 1; behind
/// the output a series at label 1 through all other nodes, and an edge at label 0 to the
/// other rail.
fn across(rail: Rail, before: u8, vector: &str) -> NamedFile {
    let nodes = nodes_from(rail, LONGEST);
    let (first, rest) = nodes.split_at(usize::from(before));
    let near = [first, &rest[..1]].concat();
    let mut edges = series(&near, &[0]);
    edges.push((rail.node, rest[0], &[1]));
    edges.extend(series(rest, &[1]));
    edges.push((rest[rest.len() - 1], 1 - rail.node, &[0]));
    let file = FileBuilder::inputs(2)
        .module(LONGEST + 1, rest[0], 2, &edges)
        .instance(1, -1, &[1, 2])
        .vectors(&[vector]);
    let (from, letters) = (rail.name, vector.to_lowercase());
    let name = format!("rounds-across-{before}-from-{from}-under-{letters}");
    named(name, file)
}

/// A follower: the channel of the other side leads from the rail to the output.
fn by_passes(rail: Rail, step: u16, order: &str) -> NamedFile {
    let inner = (0..30).map(|place| 2 + (place * step % 30) as u8);
    let mut nodes: Vec<u8> = once(rail.node).chain(inner).collect();
    let output = nodes[30];
    if order == "inward" {
        nodes.reverse();
    }
    let [near, far] = if rail.node == 0 { [P, N] } else { [N, P] };
    let pass = |file: FileBuilder, ends: &[u8]| file.pass(ends[0], ends[1], near, 0);
    let file = FileBuilder::inputs(1).field(2, &[LONGEST + 1, output, 1]);
    let file = nodes.windows(2).fold(file, pass);
    let file = file
        .pass(1 - rail.node, output, far, 0)
        .instance(1, -1, &[1])
        .vectors(&["0", "1", "X"]);
    let name = format!("rounds-passes-by-{step}-from-{}-{order}", rail.name);
    named(name, file)
}
