//! Every pair of a field's tag and the next field's, from 0 to 8: in a file that
//! has all kinds up to the first of them, and with nothing but the inputs before.

use super::frame::{before, good_body, with_rest};
use super::{named, NamedFile};
use crate::builder::FileBuilder;
use crate::starts::{nothing, two_inputs};

const TAGS: std::ops::RangeInclusive<u8> = 0..=8;

pub fn files() -> Vec<NamedFile> {
    let mut files = Vec::new();
    for tag in TAGS.chain([128, 255]) {
        let file = with_rest(good_field(nothing(), tag), tag);
        files.push(named(format!("tags-none-then-{tag}"), file));
    }
    for previous in TAGS {
        for tag in TAGS {
            let pair = |start: FileBuilder| good_field(good_field(start, previous), tag);
            let whole = with_rest(pair(before(previous)), tag);
            files.push(named(format!("tags-{previous}-then-{tag}"), whole));
            let name = format!("tags-{previous}-then-{tag}-and-no-more");
            files.push(named(name, pair(two_inputs())));
        }
    }
    files
}

fn good_field(file: FileBuilder, tag: u8) -> FileBuilder {
    file.field(tag, good_body(tag))
}
