//! Numbers 3, 4 and 9, which are given before the field's body is looked at, and
//! those of an edge, which come before 9 since an edge does not judge its type.

use super::{after, within, Meeting};
use crate::limits::frame::good_body;
use crate::starts::{
    broken_type, nothing, two_inputs, with_bridges, with_edges, with_faults_2048, with_instance,
    with_instances, with_many_bridges, with_type, with_types, with_vector,
};

pub fn meetings() -> Vec<Meeting> {
    [
        unknown_tags(),
        lengths_out_of_place(),
        counts_out_of_place(),
        numbers_out_of_place(),
        instances_out_of_place(),
        broken_types(),
        edges_of_broken_types(),
        passes_of_broken_types(),
    ]
    .concat()
}

fn unknown_tags() -> Vec<Meeting> {
    let first = |tag: u8| nothing().field(tag, &[2, 2, 1]);
    let next = |tag: u8| broken_type().field(tag, &[1, 0, 0, 1]);
    let empty = |tag: u8| with_type().field(tag, &[]);
    vec![
        (3, 4, "tag0", first(0), first(2)),
        (3, 4, "tag8", first(8), first(2)),
        (3, 4, "tag255", first(255), first(2)),
        (3, 5, "tag0", empty(0), empty(4)),
        (3, 5, "tag8", empty(8), empty(4)),
        (3, 9, "tag0", next(0), next(4)),
        (3, 9, "tag8", next(8), next(4)),
        (3, 9, "tag255", next(255), next(4)),
    ]
}

fn lengths_out_of_place() -> Vec<Meeting> {
    let (bridges, instance) = (with_bridges, with_instance);
    vec![
        after((4, 5, "tag1"), two_inputs(), nothing(), (1, &[0])),
        after((4, 5, "tag2"), bridges(), with_type(), (2, &[2, 2])),
        after((4, 5, "tag3"), bridges(), with_type(), (3, &[1, 2])),
        after((4, 5, "tag4"), instance(), bridges(), (4, &[1, 0, 0])),
        after((4, 5, "tag5"), with_vector(), instance(), (5, &[1, 0])),
        after((4, 5, "tag6"), nothing(), two_inputs(), (6, b"0")),
        after((4, 5, "tag7"), bridges(), with_type(), (7, &[1, 2, 1])),
    ]
}

/// The limit is reached, and the place for one more is past.
fn counts_out_of_place() -> Vec<Meeting> {
    let types = with_types(16);
    let edges = with_type().times(254, |file| file.field(3, &[1, 2, 0]));
    let bridges = with_many_bridges(256);
    let instances = with_instances(128);
    let past = [
        types.clone().bridge(1, 0, 0, 1),
        edges.clone().bridge(1, 0, 0, 1),
        bridges.clone().instance(1, 0, &[1]),
        instances.clone().vectors(&["00"]),
        edges.clone().bridge(1, 0, 0, 1),
    ];
    let tags = [
        (2, "tag2"),
        (3, "tag3"),
        (4, "tag4"),
        (5, "tag5"),
        (7, "tag7"),
    ];
    let full = [types, edges.clone(), bridges, instances, edges];
    let mut meetings = Vec::new();
    for ((tag, what), (past, full)) in tags.into_iter().zip(past.into_iter().zip(full)) {
        meetings.push(after((4, 6, what), past, full, (tag, good_body(tag))));
    }
    meetings
}

fn numbers_out_of_place() -> Vec<Meeting> {
    let (bridges, instance) = (with_bridges, with_instance);
    let next = |tag: u8| broken_type().field(tag, good_body(tag));
    vec![
        after((4, 7, "tag1"), two_inputs(), nothing(), (1, &[0, 0])),
        after((4, 7, "tag2"), bridges(), with_type(), (2, &[99, 2, 1])),
        after((4, 7, "tag3"), bridges(), with_type(), (3, &[1, 2, 9])),
        after((4, 7, "tag4"), instance(), bridges(), (4, &[0, 0, 0, 1])),
        after(
            (4, 7, "tag5"),
            with_vector(),
            instance(),
            (5, &[9, 0, 0, 1]),
        ),
        after((4, 7, "tag6"), nothing(), two_inputs(), (6, b"0x")),
        after((4, 7, "tag7"), bridges(), with_type(), (7, &[1, 2, 1, 9])),
        after((4, 7, "equal"), bridges(), with_type(), (7, &[2, 2, 1, 0])),
        after((4, 8, "channel"), bridges(), with_type(), (3, &[0, 1, 0])),
        after((4, 8, "equal"), bridges(), with_type(), (3, &[2, 2, 0])),
        (4, 9, "", next(1), next(2)),
    ]
}

fn instances_out_of_place() -> Vec<Meeting> {
    let late =
        |number: u8, body: &[u8]| after((4, number, ""), with_vector(), with_instance(), (5, body));
    let full = with_faults_2048;
    let past = full().vectors(&["00"]);
    vec![
        late(10, &[1, 0, 0, 9]),
        late(11, &[1, 2, 0, 1]),
        late(12, &[1, 9, 0, 1]),
        after((4, 13, ""), past, full(), (5, &[1, 255, 0, 1])),
    ]
}

fn broken_types() -> Vec<Meeting> {
    let next = |number: u8, what: &'static str, tag: u8, body: &[u8]| {
        after((9, number, what), broken_type(), with_type(), (tag, body))
    };
    let sixteenth = with_types(15).field(2, &[2, 2, 1]);
    vec![
        next(5, "tag2", 2, &[2, 2]),
        next(5, "tag4", 4, &[]),
        next(5, "tag5", 5, &[1, 0, 0]),
        next(5, "tag6", 6, b"0"),
        after((9, 6, ""), sixteenth, with_types(16), (2, &[2, 2, 1])),
        next(7, "tag2", 2, &[99, 2, 1]),
        next(7, "tag4", 4, &[0, 0, 0, 1]),
        next(7, "tag5", 5, &[2, 0, 0, 1]),
        next(7, "tag6", 6, b"0x"),
        next(10, "", 5, &[1, 0, 0, 9]),
        next(12, "", 5, &[1, 9, 0, 1]),
    ]
}

/// The mended file ends after a good edge, and the type is judged there.
fn edges_of_broken_types() -> Vec<Meeting> {
    let edge = |number: u8, what: &'static str, body: &[u8]| {
        within((number, 9, what), broken_type(), 3, body, &[1, 2, 0])
    };
    let pair: (u8, &[u8]) = (3, &[1, 2, 0, 0]);
    vec![
        edge(5, "", &[1, 2]),
        (6, 9, "", with_edges(257), with_edges(256)),
        after((6, 9, "pair"), with_edges(255), with_edges(254), pair),
        edge(7, "node", &[1, 3, 0]),
        edge(7, "label", &[1, 2, 1]),
        edge(8, "channel", &[1, 0, 0]),
        edge(8, "equal", &[2, 2, 0]),
    ]
}

/// The same with pass transistors, of which none is refused by 8.
fn passes_of_broken_types() -> Vec<Meeting> {
    let good = [1, 2, 1, 0];
    let pass = |number: u8, what: &'static str, body: &[u8]| {
        within((number, 9, what), broken_type(), 7, body, &good)
    };
    let (full, one_less) = (with_edges(256), with_edges(255));
    vec![
        pass(5, "pass-short", &[1, 2, 1]),
        pass(5, "pass-long", &[1, 2, 1, 0, 0]),
        after((6, 9, "pass"), full, one_less, (7, &good)),
        pass(7, "pass-node", &[1, 3, 1, 0]),
        pass(7, "pass-equal", &[2, 2, 1, 0]),
        pass(7, "pass-channel", &[1, 2, 2, 0]),
        pass(7, "pass-label", &[1, 2, 1, 1]),
    ]
}
