//! How many edges a type has, of both tags together: below, at and past the limit, in
//! runs of one tag and then of the other, or in turn; and types of 256 edges in which one
//! pass transistor alone decides whether the type is complementary.

use super::{named, NamedFile};
use crate::builder::FileBuilder;
use crate::limits::edge_counts::{start, whole, DECIDING};

#[derive(Clone, Copy)]
enum Run {
    /// So many edge fields, each with so many labels.
    Edges(usize, usize),
    Passes(usize),
}

use Run::{Edges, Passes};

const RUNS: [&[Run]; 30] = [
    &[Passes(255)],
    &[Passes(256)],
    &[Passes(257)],
    &[Edges(128, 1), Passes(127)],
    &[Edges(128, 1), Passes(128)],
    &[Edges(128, 1), Passes(129)],
    &[Passes(128), Edges(127, 1)],
    &[Passes(128), Edges(128, 1)],
    &[Passes(128), Edges(129, 1)],
    &[Edges(255, 1), Passes(1)],
    &[Edges(256, 1), Passes(1)],
    &[Edges(63, 4), Passes(3)],
    &[Edges(63, 4), Passes(4)],
    &[Edges(63, 4), Passes(5)],
    &[Edges(64, 4), Passes(1)],
    &[Passes(1), Edges(64, 4)],
    &[Passes(4), Edges(63, 4)],
    &[Passes(5), Edges(63, 4)],
    &[Edges(85, 3), Passes(1)],
    &[Edges(85, 3), Passes(2)],
    &[Edges(127, 2), Passes(2)],
    &[Edges(127, 2), Passes(3)],
    &[Edges(251, 1), Passes(1), Edges(1, 4)],
    &[Edges(252, 1), Passes(1), Edges(1, 4)],
    &[Edges(253, 1), Passes(1), Edges(1, 4)],
    &[Edges(253, 1), Passes(1), Edges(1, 2)],
    &[Edges(63, 4), Passes(1), Edges(1, 3)],
    &[Edges(63, 4), Passes(1), Edges(1, 4)],
    &[Edges(31, 4), Passes(129), Edges(1, 3)],
    &[Edges(31, 4), Passes(130), Edges(1, 3)],
];

/// A tag and a body.
type Field = (u8, Vec<u8>);

pub fn files() -> Vec<NamedFile> {
    let mut files: Vec<NamedFile> = RUNS.iter().map(|runs| of_runs(runs)).collect();
    for before in 252..=256 {
        files.extend((1..=4).map(|labels| of_runs(&[Passes(before), Edges(1, labels)])));
    }
    for count in [2, 255, 256, 257, 258] {
        let file = whole(with_type(start(), &in_turn(count)));
        files.push(named(format!("pass-turns-{count}"), file));
    }
    files.extend(deciding_passes());
    files.extend(later_types());
    files
}

/// From supply and to ground in turn, whatever its tag.
fn edge(place: usize, labels: usize) -> Field {
    let ends = [[1, 2], [2, 0]][place % 2];
    (3, [&ends[..], &vec![0; labels]].concat())
}

fn pass(place: usize) -> Field {
    (7, [[1, 2, 1, 0], [2, 0, 0, 0]][place % 2].to_vec())
}

/// An inverter of its first label, if these edges are on that label.
fn with_type(file: FileBuilder, fields: &[Field]) -> FileBuilder {
    let file = file.field(2, &[2, 2, 2]);
    fields
        .iter()
        .fold(file, |file, (tag, body)| file.field(*tag, body))
}

fn of_runs(runs: &[Run]) -> NamedFile {
    let mut name = "pass-runs".to_string();
    let mut fields: Vec<Field> = Vec::new();
    for &run in runs {
        let place = fields.len();
        match run {
            Edges(count, labels) => {
                name += &format!("-{count}-by-{labels}");
                fields.extend((place..place + count).map(|place| edge(place, labels)));
            }
            Passes(count) => {
                name += &format!("-{count}-passes");
                fields.extend((place..place + count).map(pass));
            }
        }
    }
    named(name, whole(with_type(start(), &fields)))
}

/// Two of tag 3, then two of tag 7, so that each tag leads to both rails.
fn in_turn(count: usize) -> Vec<Field> {
    let field = |place: usize| match place / 2 % 2 {
        0 => edge(place, 1),
        _ => pass(place),
    };
    (0..count).map(field).collect()
}

/// A pass transistor at the second label, so that both rails are joined, or the only
/// edge that leads to ground.
fn deciding_passes() -> Vec<NamedFile> {
    let mut files = Vec::new();
    for number in DECIDING {
        let mut breaking = in_turn(256);
        breaking[number - 1] = (7, vec![1, 2, 1, 1]);
        let mut needed: Vec<Field> = (0..128).flat_map(|_| [edge(0, 1), pass(0)]).collect();
        needed[number - 1] = (7, vec![2, 0, 0, 0]);
        for (what, fields) in [("breaks", breaking), ("is-needed", needed)] {
            let name = format!("pass-turns-256-of-which-{number}-{what}");
            files.push(named(name, whole(with_type(start(), &fields))));
        }
    }
    files
}

/// The limit is for one type, not for all of them.
fn later_types() -> Vec<NamedFile> {
    let types = start().times(16, |file| with_type(file, &in_turn(256)));
    let one_more = |(tag, body): Field| whole(types.clone().field(tag, &body));
    vec![
        named("pass-turns-256-in-each-of-16-types", whole(types.clone())),
        named("pass-turns-256-then-a-pass-in-type-16", one_more(pass(0))),
        named(
            "pass-turns-256-then-an-edge-in-type-16",
            one_more(edge(0, 1)),
        ),
    ]
}
