//! Every field length from 0 to 30 for each tag, and lengths whose low byte alone
//! would be a good one. The body starts as a good one does.

use super::frame::{framed, good_body};
use super::{named, NamedFile};
use crate::builder::{FileBuilder, INVERTER};

/// 256 more than each good length, their neighbours, and long ones, some with the
/// highest bit set.
const HIGH_BYTE: [usize; 15] = [
    255, 256, 257, 258, 259, 260, 261, 262, 263, 282, 4_096, 30_000, 32_770, 32_771, 32_772,
];

pub fn files() -> Vec<NamedFile> {
    let mut files = Vec::new();
    for tag in 1..=7 {
        for length in (0..=30).chain(HIGH_BYTE) {
            let file = framed(tag, &body(tag, length));
            files.push(named(format!("length-tag{tag}-{length}"), file));
        }
    }
    files.extend((0..=30).map(|length| {
        let name = format!("length-tag5-{length}-for-12-labels");
        named(name, of_twelve_labels(length))
    }));
    files.extend([0, 1, 2, 63, 64, 65, 128, 320].map(|length| {
        let name = format!("length-tag6-{length}-for-64-inputs");
        named(name, of_64_inputs(length))
    }));
    files
}

/// A good body cut, or filled up so that what is added is good where it may be.
fn body(tag: u8, length: usize) -> Vec<u8> {
    let filling: &[u8] = match tag {
        5 => &[0, 1],
        6 => b"1",
        _ => &[0],
    };
    let good = good_body(tag).iter();
    let filled = good.chain(filling.iter().cycle());
    filled.copied().take(length).collect()
}

fn of_twelve_labels(length: usize) -> FileBuilder {
    FileBuilder::inputs(1)
        .module(2, 2, 12, INVERTER)
        .field(5, &body(5, length))
        .vectors(&["0"])
}

fn of_64_inputs(length: usize) -> FileBuilder {
    FileBuilder::inputs(64)
        .inverter()
        .instance(1, -1, &[64])
        .field(6, &body(6, length))
}
