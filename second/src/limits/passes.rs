//! Pass transistors: their numbers around the ends of their ranges, how many there may
//! be beside edges of tag 3, when their type is judged, types that fail under some
//! setting by them, and files in which the other channel would show.

mod channels;
mod counts;
mod judged;
mod numbers;
mod settings;

use super::{named, NamedFile};

pub fn files() -> Vec<NamedFile> {
    [
        numbers::files(),
        counts::files(),
        judged::files(),
        settings::files(),
        channels::files(),
    ]
    .concat()
}

/// Both channels: the letter, and the byte.
const CHANNELS: [(char, u8); 2] = [('n', 0), ('p', 1)];
