//! The ends of an edge in every place of the channel rule and past the highest
//! node, and its labels around the end of their range. The edge is added to an
//! inverter that stays complementary with it.

use std::collections::BTreeSet;

use super::{named, NamedFile};
use crate::builder::FileBuilder;

/// Highest node, output node and the nodes that are tried at both ends.
pub const GRIDS: [(u8, u8, &[u8]); 5] = [
    (2, 2, &[0, 1, 2, 3, 255]),
    (4, 2, &[0, 1, 2, 3, 4, 5, 255]),
    (4, 4, &[0, 1, 2, 3, 4, 5, 255]),
    (6, 4, &[0, 1, 2, 3, 4, 5, 6, 7, 31, 32, 255]),
    (31, 17, &[0, 1, 2, 16, 17, 18, 30, 31, 32, 128, 255]),
];

/// How many labels a type has, and those that are tried.
pub const LABELS: [(u8, &[u8]); 3] = [
    (1, &[0, 1, 2, 11, 12, 128, 255]),
    (2, &[0, 1, 2, 3, 11, 12, 128, 255]),
    (12, &[0, 11, 12, 13, 128, 255]),
];

pub fn files() -> Vec<NamedFile> {
    let mut files = Vec::new();
    for (highest, output, nodes) in GRIDS {
        for &first in nodes {
            for &second in nodes {
                let name = format!("edge-ends-{first}-{second}-in-h{highest}-o{output}");
                let file = with_edge([highest, output, 1], &[first, second, 0]);
                files.push(named(name, file));
            }
        }
    }
    for (labels, tried) in LABELS {
        files.extend(label_files(labels, tried));
    }
    files
}

fn with_edge(numbers: [u8; 3], edge: &[u8]) -> FileBuilder {
    let [_, output, labels] = numbers;
    let references = vec![1; usize::from(labels)];
    FileBuilder::inputs(1)
        .field(2, &numbers)
        .field(3, &[1, output, 0])
        .field(3, &[0, output, 0])
        .field(3, edge)
        .instance(1, -1, &references)
        .vectors(&["0", "1", "X"])
}

/// One to four labels, with one of them at an end of the range. The edge leads to
/// a node without other edges, so any label leaves the type complementary.
fn label_files(labels: u8, tried: &[u8]) -> Vec<NamedFile> {
    let mut bodies = BTreeSet::new();
    for count in 1..=4 {
        for place in 0..count {
            for &label in tried {
                let mut body = vec![1, 2];
                body.resize(2 + count, 0);
                body[2 + place] = label;
                bodies.insert(body);
            }
        }
    }
    let file = |body: &Vec<u8>| {
        let list: String = body[2..].iter().map(|label| format!("{label}-")).collect();
        let name = format!("edge-labels-{list}of-k{labels}");
        named(name, with_edge([3, 3, labels], body))
    };
    bodies.iter().map(file).collect()
}
