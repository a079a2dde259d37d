//! How many edges a type has, counted by label whatever fields hold them: below, at
//! and past the limit, in fields of one to four labels; and types of 256 edges of
//! which one alone decides whether the type is complementary.

use super::{named, NamedFile};
use crate::builder::FileBuilder;

/// 64 is what the limit of fields once was.
const COUNTS: [usize; 10] = [64, 65, 253, 254, 255, 256, 257, 258, 259, 260];

/// Edges that decide alone, from 1: at the ends, and around each 64.
pub const DECIDING: [usize; 7] = [1, 64, 65, 128, 129, 255, 256];

/// Ends of an edge from supply, and of one to ground.
const P: [u8; 2] = [1, 2];
const N: [u8; 2] = [2, 0];

pub fn files() -> Vec<NamedFile> {
    let mut files = Vec::new();
    for group in 1..=4 {
        for count in COUNTS {
            let file = whole(with_type(start(), &bodies(count, group)));
            files.push(named(format!("edges-{count}-by-{group}"), file));
        }
    }
    for group in [1, 4] {
        files.extend(one_field_more(group));
        files.extend(deciding_edges(group));
        files.extend(later_types(group));
    }
    files
}

pub fn start() -> FileBuilder {
    FileBuilder::inputs(1)
}

/// An inverter of its first label, if these edges are on that label.
fn with_type(file: FileBuilder, bodies: &[Vec<u8>]) -> FileBuilder {
    let file = file.field(2, &[2, 2, 2]);
    bodies.iter().fold(file, |file, body| file.field(3, body))
}

pub fn whole(file: FileBuilder) -> FileBuilder {
    file.instance(1, -1, &[1, 1]).vectors(&["0", "1"])
}

/// Edge fields with so many labels together: single ones first, then groups of this
/// size. They lead from supply and to ground in turn.
fn bodies(count: usize, group: usize) -> Vec<Vec<u8>> {
    let singles = vec![1; count % group];
    let groups = vec![group; count / group];
    let sizes = singles.into_iter().chain(groups);
    let ends = [P, N].into_iter().cycle();
    sizes
        .zip(ends)
        .map(|(size, ends)| body(ends, size))
        .collect()
}

fn body(ends: [u8; 2], labels: usize) -> Vec<u8> {
    [&ends[..], &vec![0; labels]].concat()
}

/// A last field of each size, which fits or passes the limit as a whole.
fn one_field_more(group: usize) -> Vec<NamedFile> {
    let mut files = Vec::new();
    for before in 252..=256 {
        for labels in 1..=4 {
            let bodies = [bodies(before, group), vec![body(P, labels)]].concat();
            let name = format!("edges-{before}-by-{group}-then-{labels}");
            files.push(named(name, whole(with_type(start(), &bodies))));
        }
    }
    files
}

/// An edge on the second label, so that both rails are joined, or the only field
/// that leads to ground.
fn deciding_edges(group: usize) -> Vec<NamedFile> {
    let mut files = Vec::new();
    for edge in DECIDING {
        let (field, place) = ((edge - 1) / group, (edge - 1) % group);
        let mut breaking = bodies(256, group);
        breaking[field][2 + place] = 1;
        let mut needed = vec![body(P, group); 256 / group];
        needed[field] = body(N, group);
        for (what, bodies) in [("breaks", breaking), ("is-needed", needed)] {
            let name = format!("edges-256-by-{group}-of-which-{edge}-{what}");
            files.push(named(name, whole(with_type(start(), &bodies))));
        }
    }
    files
}

/// The limit is for one type, not for all of them.
fn later_types(group: usize) -> Vec<NamedFile> {
    let full = bodies(256, group);
    let types = start().times(16, |file| with_type(file, &full));
    let one_more = types.clone().field(3, &body(P, 1));
    let name = format!("edges-256-by-{group}");
    vec![
        named(format!("{name}-in-each-of-16-types"), whole(types)),
        named(format!("{name}-then-1-in-type-16"), whole(one_more)),
    ]
}
