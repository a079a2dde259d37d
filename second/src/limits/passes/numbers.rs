//! The nodes, the channel and the label of a pass transistor around the ends of their
//! ranges, and equal ends. It is added to an inverter, of which it may join the output
//! to the other rail.

use super::{named, NamedFile, CHANNELS};
use crate::builder::FileBuilder;
use crate::limits::edges::{GRIDS, LABELS};

pub fn files() -> Vec<NamedFile> {
    [ends(), equal_ends(), channel_bytes(), labels(), as_edges()].concat()
}

fn with_pass([highest, output, labels]: [u8; 3], body: &[u8]) -> FileBuilder {
    let references = vec![1; usize::from(labels)];
    FileBuilder::inputs(1)
        .field(2, &[highest, output, labels])
        .field(3, &[1, output, 0])
        .field(3, &[0, output, 0])
        .field(7, body)
        .instance(1, -1, &references)
        .vectors(&["0", "1", "X"])
}

/// In every place of the rule that tag 3 has, kept and broken, and past the highest node.
fn ends() -> Vec<NamedFile> {
    let mut files = Vec::new();
    for (highest, output, nodes) in GRIDS {
        for &first in nodes {
            for &second in nodes {
                for (letter, byte) in CHANNELS {
                    let name =
                        format!("pass-ends-{first}-{second}-{letter}-in-h{highest}-o{output}");
                    let file = with_pass([highest, output, 1], &[first, second, byte, 0]);
                    files.push(named(name, file));
                }
            }
        }
    }
    files
}

fn equal_ends() -> Vec<NamedFile> {
    let mut files = Vec::new();
    for (highest, output) in [(2, 2), (6, 4), (31, 31)] {
        for node in 0..=highest + 1 {
            for (letter, byte) in CHANNELS {
                let name = format!("pass-equal-{node}-{letter}-in-h{highest}-o{output}");
                let file = with_pass([highest, output, 1], &[node, node, byte, 0]);
                files.push(named(name, file));
            }
        }
    }
    files
}

/// To a node without other edges, so the type stays complementary with both channels.
fn channel_bytes() -> Vec<NamedFile> {
    let file = |byte: u8| {
        let file = with_pass([3, 2, 1], &[2, 3, byte, 0]);
        named(format!("pass-channel-{byte}"), file)
    };
    (0..=255).map(file).collect()
}

fn labels() -> Vec<NamedFile> {
    let mut files = Vec::new();
    for (labels, tried) in LABELS {
        for &label in tried {
            for (letter, byte) in CHANNELS {
                let name = format!("pass-label-{label}-{letter}-of-k{labels}");
                let file = with_pass([3, 2, labels], &[2, 3, byte, label]);
                files.push(named(name, file));
            }
        }
    }
    files
}

/// Bodies that are good for tag 3, with one to four labels at 0. By tag 7 the one of four
/// bytes leads from supply to the output where its label is 1.
fn as_edges() -> Vec<NamedFile> {
    let file = |length: usize| {
        let body = &[1, 2, 0, 0, 0, 0][..length];
        named(format!("pass-as-edge-{length}"), with_pass([2, 2, 1], body))
    };
    (3..=6).map(file).collect()
}
