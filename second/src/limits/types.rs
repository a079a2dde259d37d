//! The numbers of a type around the ends of their ranges: highest node, output
//! node and labels.

use std::collections::BTreeSet;

use super::{named, NamedFile};
use crate::builder::FileBuilder;

const HIGHEST: [u8; 12] = [0, 1, 2, 3, 4, 30, 31, 32, 33, 127, 128, 255];
const LABELS: [u8; 18] = [
    0, 1, 2, 3, 4, 5, 6, 7, 8, 9, 10, 11, 12, 13, 14, 127, 128, 255,
];

pub fn files() -> Vec<NamedFile> {
    let mut numbers = BTreeSet::new();
    for highest in HIGHEST {
        let near = [highest.wrapping_sub(1), highest, highest.wrapping_add(1)];
        for output in near.into_iter().chain([0, 1, 2, 3, 31, 32, 255]) {
            numbers.insert([highest, output, 1]);
        }
    }
    for labels in LABELS {
        numbers.extend([[2, 2, labels], [31, 17, labels]]);
    }
    numbers
        .into_iter()
        .map(|[h, o, k]| named(format!("type-h{h}-o{o}-k{k}"), of_type(h, o, k)))
        .collect()
}

/// An inverter of its last label. The type is complementary if its numbers are
/// good; if they are not, its edges and its instance are not read.
fn of_type(highest: u8, output: u8, labels: u8) -> FileBuilder {
    let last = [labels.wrapping_sub(1)];
    let edges: [(u8, u8, &[u8]); 2] = [(output, 1, &last), (0, output, &last)];
    let references = vec![1; usize::from(labels)];
    FileBuilder::inputs(1)
        .module(highest, output, labels, &edges)
        .instance(1, -1, &references)
        .vectors(&["0", "1", "X"])
}
