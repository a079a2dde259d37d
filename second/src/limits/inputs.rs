//! The number of primary inputs around the ends of its range, and numbers of
//! which one byte alone would be good.

use super::{named, NamedFile};
use crate::builder::FileBuilder;

const COUNTS: [u16; 18] = [
    0, 1, 2, 63, 64, 65, 66, 127, 128, 255, 256, 257, 320, 512, 16_384, 32_767, 32_768, 65_535,
];

pub fn files() -> Vec<NamedFile> {
    COUNTS
        .iter()
        .map(|&count| named(format!("inputs-{count}"), of_inputs(count)))
        .collect()
}

/// The instance takes the last input. A vector for too many inputs is not read,
/// so it is kept short.
fn of_inputs(count: u16) -> FileBuilder {
    let vector = "1".repeat(usize::from(count.min(320)));
    FileBuilder::inputs(count)
        .inverter()
        .instance(1, -1, &[count.min(64) as i16])
        .vectors(&[vector.as_str()])
}
