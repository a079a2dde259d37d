//! Numbers 1, 2 and 14 with each other number: a file with one fault in its last
//! field is made too long, is cut inside that field, or ends after it without a
//! vector.

use super::Meeting;
use crate::builder::{FileBuilder, P};
use crate::starts::{
    broken_type, two_inputs, with_bridges, with_faults_2048, with_instance, with_type, with_types,
};

const TOO_LONG: usize = 57_345;

pub fn meetings() -> Vec<Meeting> {
    let mut meetings = Vec::new();
    for (number, what, good, bad) in single_faults() {
        let too_long = bad.clone().resized(TOO_LONG);
        meetings.push((1, number, what, too_long, bad.clone()));
        meetings.push((number, 14, what, bad.clone(), good));
        // A type is judged at a later field, and what is cut already stays cut.
        if number != 2 && number != 9 {
            let cut = bad.clone().resized(bad.end() - 1);
            meetings.push((2, number, what, cut, bad));
        }
    }
    meetings.extend(cut_after_a_broken_type());
    meetings
}

/// A number, what tells the fault from others of that number, a start without a vector,
/// and the start with the fault.
type Fault = (u8, &'static str, FileBuilder, FileBuilder);

fn single_faults() -> Vec<Fault> {
    let added = |number: u8, before: FileBuilder, tag: u8, body: &[u8]| {
        (number, "", before.clone(), before.field(tag, body))
    };
    let cut = with_bridges().raw(&[5, 255, 255, 1]);
    let nand = two_inputs().nand();
    let faults = vec![
        (2, "", with_bridges(), cut),
        added(3, with_type(), 8, &[0]),
        added(4, with_bridges(), 2, &[2, 2, 1]),
        added(5, with_type(), 4, &[1, 0, 0, 1, 0]),
        added(6, with_types(16), 2, &[2, 2, 1]),
        added(7, with_type(), 4, &[0, 0, 0, 1]),
        added(8, with_type(), 3, &[0, 1, 0]),
        (9, "", with_type(), broken_type()),
        // The zero reference stands before the byte that is cut off.
        added(10, nand, 5, &[1, 0, 0, 0, 0, 1]),
        added(11, with_instance(), 5, &[1, 2, 0, 1]),
        added(12, with_instance(), 5, &[1, 9, 0, 1]),
        added(13, with_faults_2048(), 5, &[1, 255, 0, 1]),
    ];
    [faults, faults_of_passes()].concat()
}

/// The fault stands before the byte that is cut off, where it is one of a number.
fn faults_of_passes() -> Vec<Fault> {
    let added = |number: u8, what: &'static str, before: FileBuilder, body: &[u8]| {
        (number, what, before.clone(), before.field(7, body))
    };
    let full = with_type().times(254, |file| file.pass(1, 2, P, 0));
    vec![
        added(4, "pass", with_bridges(), &[1, 2, 1, 0]),
        added(5, "pass", with_type(), &[1, 2, 1, 0, 0]),
        added(6, "pass", full, &[1, 2, 1, 0]),
        added(7, "pass-node", with_type(), &[3, 2, 1, 0]),
        added(7, "pass-equal", with_type(), &[2, 2, 1, 0]),
        added(7, "pass-channel", with_type(), &[1, 2, 2, 0]),
    ]
}

/// The head or the body of the field that would judge the type is cut.
fn cut_after_a_broken_type() -> Vec<Meeting> {
    let judged = broken_type().bridge(1, 0, 0, 1);
    let cut = |what: &'static str, length: usize| {
        let both = judged.clone().resized(broken_type().end() + length);
        (2, 9, what, both, judged.clone())
    };
    vec![cut("tag-alone", 1), cut("head", 2), cut("body", 6)]
}
