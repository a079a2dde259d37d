//! All 256 list choices: with a list of that number, without it, and with every
//! list there can be. The byte is named unsigned, so 255 is the exhaustive list.

use super::{named, NamedFile};
use crate::builder::FileBuilder;

pub fn files() -> Vec<NamedFile> {
    let mut files = Vec::new();
    for byte in 0..=255u8 {
        let other = if byte == 1 { 2 } else { 1 };
        let cases = [
            ("with-its-list", listed(start(), byte)),
            ("without-its-list", listed(start(), other)),
            ("with-every-list", (1..=127).fold(start(), listed)),
        ];
        for (what, file) in cases {
            let file = file.field(5, &[1, byte, 0, 1]).vectors(&["0", "1", "X"]);
            files.push(named(format!("choice-{byte}-{what}"), file));
        }
    }
    files
}

fn start() -> FileBuilder {
    FileBuilder::inputs(1).module(31, 31, 1, &[(1, 31, &[0]), (31, 0, &[0])])
}

/// A bridge of this list, with nodes that no other list has, so that the rows
/// show which list was taken. Lists 0 and above 127 are refused here already.
fn listed(file: FileBuilder, list: u8) -> FileBuilder {
    file.bridge(list, 0, list / 16, 16 + list % 16)
}
