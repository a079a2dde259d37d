//! The type number of an instance around the ends of its range, for no type, one,
//! two and sixteen.

use std::collections::BTreeSet;

use super::{named, NamedFile};
use crate::builder::FileBuilder;

pub fn files() -> Vec<NamedFile> {
    let mut files = Vec::new();
    for types in [0u8, 1, 2, 16] {
        let near = [types.saturating_sub(1), types, types + 1];
        let numbers: BTreeSet<u8> = near.into_iter().chain([0, 1, 127, 128, 255]).collect();
        for number in numbers {
            let file = FileBuilder::inputs(1)
                .times(usize::from(types), FileBuilder::inverter)
                .instance(number, -1, &[1])
                .vectors(&["0", "1"]);
            files.push(named(format!("type-number-{number}-of-{types}"), file));
        }
    }
    files
}
