//! Numbers 5 to 13 with each other: faults of the field's length, its count, its
//! numbers, its edge ends, its references and its list.

use super::{after, within, Meeting};
use crate::builder::{FileBuilder, P};
use crate::starts::{
    nothing, two_inputs, with_bridges, with_edges, with_faults_2048, with_instance, with_instances,
    with_many_bridges, with_type, with_types, with_vectors,
};

pub fn meetings() -> Vec<Meeting> {
    [
        lengths_and_counts(),
        lengths_and_numbers(),
        lengths_and_passes(),
        lengths_and_instances(),
        counts_and_numbers(),
        edges_and_numbers(),
        passes_and_numbers(),
        counts_and_instances(),
        numbers_and_others(),
        references_and_lists(),
    ]
    .concat()
}

fn lengths_and_counts() -> Vec<Meeting> {
    let (short, good): (&[u8], &[u8]) = (&[1, 0], &[1, 0, 0, 1]);
    let (five, four): (&[u8], &[u8]) = (&[1, 2, 0, 0, 0, 0, 0], &[1, 2, 0, 0, 0, 0]);
    let pass = [1, 2, 1, 0, 0];
    vec![
        within((5, 6, "tag2"), with_types(16), 2, &[2, 2], &[2, 2, 1]),
        within((5, 6, "tag3"), with_edges(256), 3, &[1, 2], &[1, 2, 0]),
        within((5, 6, "tag3-five"), with_edges(253), 3, five, four),
        within((5, 6, "tag4"), with_many_bridges(256), 4, short, good),
        within((5, 6, "tag5"), with_instances(128), 5, short, good),
        within((5, 6, "tag6"), with_vectors(256), 6, b"0", b"00"),
        within((5, 6, "tag7"), with_edges(256), 7, &pass[..3], &pass[..4]),
        within((5, 6, "tag7-long"), with_edges(256), 7, &pass, &pass[..4]),
    ]
}

fn lengths_and_numbers() -> Vec<Meeting> {
    let (long, ends): (&[u8], &[u8]) = (&[0, 1, 0, 0, 0, 0, 0], &[0, 1, 0, 0, 0, 0]);
    vec![
        within((5, 7, "tag1"), nothing(), 1, &[0, 0, 0], &[0, 0]),
        within((5, 7, "tag2"), two_inputs(), 2, &[99, 2], &[99, 2, 1]),
        within((5, 7, "tag3"), with_type(), 3, &[9, 9], &[9, 9, 9]),
        within((5, 7, "tag4"), with_type(), 4, &[0, 9, 9], &[0, 9, 9, 9]),
        within(
            (5, 7, "tag5"),
            with_type(),
            5,
            &[0, 128, 0],
            &[0, 128, 0, 1],
        ),
        within((5, 7, "tag6"), with_instance(), 6, b"x", b"xx"),
        within((5, 8, "short"), with_type(), 3, &[0, 1], &[0, 1, 0]),
        within((5, 8, "long"), with_type(), 3, long, ends),
        within((5, 8, "equal"), with_type(), 3, &[2, 2], &[2, 2, 0]),
    ]
}

/// Each fault of a pass transistor in a field that is too short or too long.
fn lengths_and_passes() -> Vec<Meeting> {
    let short =
        |what: &'static str, body: &[u8; 4]| within((5, 7, what), with_type(), 7, &body[..3], body);
    let long = |what: &'static str, body: &[u8; 4]| {
        let longer = [&body[..], &[0]].concat();
        within((5, 7, what), with_type(), 7, &longer, body)
    };
    vec![
        short("pass-node", &[3, 2, 1, 0]),
        short("pass-equal", &[2, 2, 1, 0]),
        short("pass-channel", &[1, 2, 2, 0]),
        long("pass-long-node", &[2, 3, 1, 0]),
        long("pass-long-equal", &[0, 0, 1, 0]),
        long("pass-long-channel", &[1, 2, 255, 0]),
        long("pass-long-label", &[1, 2, 1, 1]),
    ]
}

fn lengths_and_instances() -> Vec<Meeting> {
    let odd = |number: u8, before: FileBuilder, good: &[u8; 4]| {
        let longer = [&good[..], &[0]].concat();
        within((5, number, "odd"), before, 5, &longer, good)
    };
    let (short, zero): (&[u8], &[u8]) = (&[1, 0], &[1, 0, 0, 0]);
    let thirteen = [1, 0].repeat(14);
    vec![
        odd(10, with_bridges(), &[1, 0, 0, 9]),
        odd(11, with_bridges(), &[1, 2, 0, 1]),
        odd(12, with_bridges(), &[1, 9, 0, 1]),
        odd(13, with_faults_2048(), &[1, 255, 0, 1]),
        within((5, 10, "none"), with_bridges(), 5, short, zero),
        within((5, 10, "13"), with_bridges(), 5, &thirteen, &thirteen[..26]),
    ]
}

fn counts_and_numbers() -> Vec<Meeting> {
    let (few, many) = (with_many_bridges(255), with_many_bridges(256));
    let instances = with_instances;
    vec![
        after((6, 7, "tag2"), with_types(16), with_types(15), (2, &[0; 3])),
        after((6, 7, "tag4"), many, few, (4, &[0; 4])),
        after((6, 7, "tag5"), instances(128), instances(127), (5, &[0; 4])),
        after(
            (6, 7, "tag6"),
            with_vectors(256),
            with_vectors(255),
            (6, b"xx"),
        ),
    ]
}

/// A field that passes the limit is refused as a whole, whatever is wrong with a
/// label or an end that would still fit.
fn edges_and_numbers() -> Vec<Meeting> {
    let edges = |count: usize| with_type().times(count - 2, |file| file.field(3, &[1, 2, 0]));
    let field = |number: u8, what: &'static str, body: &[u8]| {
        let fitting = 256 - (body.len() - 2);
        let case = (6, number, what);
        after(case, edges(fitting + 1), edges(fitting), (3, body))
    };
    vec![
        field(7, "tag3", &[9, 9, 9]),
        field(7, "pair-node", &[1, 9, 0, 0]),
        field(7, "pair-first-label", &[1, 2, 9, 0]),
        field(7, "pair-last-label", &[1, 2, 0, 9]),
        field(7, "four-first-label", &[1, 2, 9, 0, 0, 0]),
        field(7, "four-last-label", &[1, 2, 0, 0, 0, 9]),
        field(8, "channel", &[0, 1, 0]),
        field(8, "equal", &[1, 1, 0]),
        field(8, "pair-channel", &[0, 1, 0, 0]),
        field(8, "pair-equal", &[1, 1, 0, 0]),
        field(8, "four-channel", &[0, 1, 0, 0, 0, 0]),
        field(8, "four-equal", &[1, 1, 0, 0, 0, 0]),
    ]
}

/// The edges before are nearly all of tag 7, or half of them of tag 3.
fn passes_and_numbers() -> Vec<Meeting> {
    let faults: [(&'static str, [u8; 4]); 4] = [
        ("pass-node", [1, 3, 1, 0]),
        ("pass-equal", [1, 1, 1, 0]),
        ("pass-channel", [1, 2, 2, 0]),
        ("pass-label", [1, 2, 1, 1]),
    ];
    let passes = |count: usize| with_type().times(count, |file| file.pass(1, 2, P, 0));
    let edges = |file: FileBuilder| file.times(127, |file| file.field(3, &[1, 2, 0]));
    let mut meetings = Vec::new();
    for (what, body) in faults {
        let (full, one_less) = (passes(254), passes(253));
        meetings.push(after((6, 7, what), full, one_less, (7, &body)));
    }
    let (full, one_less) = (edges(passes(127)), edges(passes(126)));
    let body = [9, 9, 9, 9];
    meetings.push(after((6, 7, "pass-after-both"), full, one_less, (7, &body)));
    meetings
}

fn counts_and_instances() -> Vec<Meeting> {
    let (full, one_less) = (with_instances(128), with_instances(127));
    let instance =
        |number: u8, body: &[u8]| after((6, number, ""), full.clone(), one_less.clone(), (5, body));
    let idle = |count: usize| with_faults_2048().times(count, |file| file.instance(1, 0, &[1]));
    vec![
        instance(10, &[1, 0, 0, 0]),
        instance(11, &[1, 2, 0, 1]),
        instance(12, &[1, 9, 0, 1]),
        after((6, 13, ""), idle(116), idle(115), (5, &[1, 255, 0, 1])),
    ]
}

fn numbers_and_others() -> Vec<Meeting> {
    let type_4 = two_inputs().field(2, &[4, 3, 2]);
    let edge = |what: &'static str, faulty: &[u8], mended: &[u8]| {
        within((7, 8, what), type_4.clone(), 3, faulty, mended)
    };
    let instance = |number: u8, what: &'static str, faulty: &[u8], mended: &[u8]| {
        let before = match number {
            13 => with_faults_2048(),
            _ => with_bridges(),
        };
        within((7, number, what), before, 5, faulty, mended)
    };
    vec![
        edge("equal", &[5, 5, 0], &[4, 4, 0]),
        edge("label", &[0, 1, 2], &[0, 1, 1]),
        edge("last-label", &[0, 1, 0, 0, 1, 2], &[0, 1, 0, 0, 1, 1]),
        instance(10, "type", &[2, 0, 0, 1, 0, 1], &[1, 0, 0, 1, 0, 1]),
        instance(10, "choice", &[1, 254, 0, 0], &[1, 0, 0, 0]),
        instance(11, "type", &[9, 2, 0, 1], &[1, 2, 0, 1]),
        instance(12, "type", &[0, 9, 0, 1], &[1, 9, 0, 1]),
        instance(13, "exhaustive", &[2, 255, 0, 1], &[1, 255, 0, 1]),
        instance(13, "list", &[0, 1, 0, 1], &[1, 1, 0, 1]),
    ]
}

/// Each way to be 10 with each fault of a list, then 11 with 13.
fn references_and_lists() -> Vec<Meeting> {
    let references: [(&'static str, &[u8]); 4] = [
        ("zero", &[0, 0]),
        ("above", &[0, 3]),
        ("not-earlier", &[255, 200]),
        ("two", &[0, 1, 0, 1]),
    ];
    let lists = [
        (11, 2, with_bridges()),
        (12, 9, with_bridges()),
        (13, 255, with_faults_2048()),
    ];
    let mut meetings = Vec::new();
    for (what, references) in references {
        for (number, choice, before) in &lists {
            let faulty = [&[1, *choice], references].concat();
            let mended = [1, *choice, 0, 1];
            let case = (10, *number, what);
            meetings.push(within(case, before.clone(), 5, &faulty, &mended));
        }
    }
    let (faulty, mended) = ([1, 2, 0, 1], [1, 1, 0, 1]);
    meetings.push(within(
        (11, 13, ""),
        with_faults_2048(),
        5,
        &faulty,
        &mended,
    ));
    meetings
}
