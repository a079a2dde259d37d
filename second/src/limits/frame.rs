//! The frame round a field under test: what stands before a field of its tag, a
//! good body, and what makes the file whole after it. With a good field the file
//! is accepted, so a wrong refusal shows as well as a missed one.

use crate::builder::FileBuilder;
use crate::starts::{nothing, two_inputs, with_bridges, with_instance, with_type};

pub fn before(tag: u8) -> FileBuilder {
    match tag {
        1 => nothing(),
        2 => two_inputs(),
        3 | 4 | 7 => with_type(),
        5 => with_bridges(),
        _ => with_instance(),
    }
}

pub fn good_body(tag: u8) -> &'static [u8] {
    match tag {
        1 => &[0, 2],
        2 => &[2, 2, 1],
        3 => &[1, 2, 0],
        4 => &[1, 0, 0, 1],
        5 => &[1, 255, 0, 1],
        6 => b"0X",
        7 => &[1, 2, 1, 0],
        _ => &[],
    }
}

/// Adds what the file still needs after a field of this tag. A tag that is not 1
/// to 7 is refused, so anything may follow it.
pub fn with_rest(file: FileBuilder, tag: u8) -> FileBuilder {
    let file = match tag {
        1 => file.inverter(),
        2 => file.field(3, &[1, 2, 0]).field(3, &[2, 0, 0]),
        3 | 7 => file.field(3, &[2, 0, 0]),
        _ => file,
    };
    let file = match tag {
        1..=3 | 7 => file.instance(1, -1, &[2]),
        4 => file.instance(1, 1, &[2]),
        _ => file,
    };
    file.vectors(&["10"])
}

pub fn framed(tag: u8, body: &[u8]) -> FileBuilder {
    with_rest(before(tag).field(tag, body), tag)
}
