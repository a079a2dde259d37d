//! Every two nodes of small types joined by a pass transistor of either channel. The
//! types are inverters with each inner node on the rail of its side, all at label 0; of
//! two inner nodes of one side, the second is on none. So the other channel is refused or
//! has other marks, but for the two rails, which no channel may join.

use super::{named, NamedFile, CHANNELS};
use crate::builder::FileBuilder;

/// Highest node and output node.
const TYPES: [[u8; 2]; 5] = [[2, 2], [3, 2], [3, 3], [4, 3], [6, 4]];

pub fn files() -> Vec<NamedFile> {
    let mut files = Vec::new();
    for [highest, output] in TYPES {
        for first in 0..=highest {
            for second in (0..=highest).filter(|&second| second != first) {
                for (letter, byte) in CHANNELS {
                    let ends = format!("{first}-{second}-{letter}");
                    let name = format!("pass-shows-{ends}-in-h{highest}-o{output}");
                    let file = start([highest, output], [first, second]);
                    let file = file.pass(first, second, byte, 0);
                    let file = file.instance(1, -1, &[1]).vectors(&["0", "1", "X"]);
                    files.push(named(name, file));
                }
            }
        }
    }
    files
}

/// Nodes up to the output on supply where the label is 0, from the output on ground where
/// it is 1.
fn start([highest, output]: [u8; 2], ends: [u8; 2]) -> FileBuilder {
    let are_of_one_side = ends.iter().all(|end| (2..output).contains(end))
        || ends.iter().all(|end| (output + 1..=highest).contains(end));
    let is_hung = |node: &u8| !(are_of_one_side && *node == ends[1]);
    let on_supply = |file: FileBuilder, node: u8| file.field(3, &[1, node, 0]);
    let on_ground = |file: FileBuilder, node: u8| file.field(3, &[node, 0, 0]);
    let file = FileBuilder::inputs(1).field(2, &[highest, output, 1]);
    let file = (2..=output).filter(is_hung).fold(file, on_supply);
    (output..=highest).filter(is_hung).fold(file, on_ground)
}
