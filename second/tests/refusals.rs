//! A case for each refusal number with its place, and, for numbers that can meet
//! in one field, which of them is given.

mod support;

use second::builder::{FileBuilder, INVERTER};
use second::grade::grade;
use second::refusal::Refusal;
use second::starts::{
    broken_type, nothing, two_inputs, with_bridges, with_edges, with_faults_2048, with_instance,
    with_instances, with_many_bridges, with_type, with_types, with_vector, with_vectors,
};
use support::refusal;

/// What is said of the field, the file before it, its tag and body, the number.
type Case<'a> = (&'a str, FileBuilder, u8, &'a [u8], u8);

/// Each field is refused at its own offset, whatever comes after it.
fn check_at_field(cases: Vec<Case>) {
    for (name, before, tag, body, number) in cases {
        let place = before.end();
        let file = before.field(tag, body);
        assert_eq!(refusal(&file.bytes), Some((number, place)), "{name}");
        let longer = file.raw(&[9]);
        assert_eq!(refusal(&longer.bytes), Some((number, place)), "{name}");
    }
}

#[test]
fn number_1_comes_before_all() {
    let junk = vec![255; 57_345];
    assert_eq!(refusal(&junk), Some((1, 0)));
    assert_eq!(refusal(&junk[1..]), Some((2, 0)));
    let mut zeros = with_vector().bytes;
    let end = zeros.len();
    zeros.resize(57_344, 0);
    assert_eq!(refusal(&zeros), Some((3, end)));
    zeros.push(0);
    assert_eq!(refusal(&zeros), Some((1, 0)));
}

#[test]
fn number_2_for_cut_fields() {
    let file = with_vector();
    let end = file.end();
    for tail in [
        &[6u8][..],
        &[6, 0],
        &[6, 0, 2],
        &[6, 0, 2, b'0'],
        &[9, 1, 0, 0],
    ] {
        let cut = file.clone().raw(tail);
        assert_eq!(refusal(&cut.bytes), Some((2, end)), "{tail:?}");
    }
    let no_tag = [&[9u8, 0, 1][..], &[9, 0], &[2, 0, 3, 2]];
    for start in no_tag {
        assert_eq!(refusal(start), Some((2, 0)), "{start:?}");
    }
}

#[test]
fn number_3_for_tags() {
    check_at_field(vec![
        ("tag 0", two_inputs(), 0, &[], 3),
        ("tag 8", with_vector(), 8, &[], 3),
        ("tag 255", with_type(), 255, &[1, 2], 3),
        ("tag 0 first", nothing(), 0, &[0, 2], 3),
    ]);
}

#[test]
fn number_4_for_places_before_the_bridges() {
    check_at_field(vec![
        ("first field a type", nothing(), 2, &[2, 2, 1], 4),
        ("first field an edge", nothing(), 3, &[1, 2, 0], 4),
        ("first field a vector", nothing(), 6, b"0", 4),
        ("inputs twice", two_inputs(), 1, &[0, 2], 4),
        ("inputs after a vector", with_vector(), 1, &[0, 2], 4),
        ("edge without type", two_inputs(), 3, &[1, 2, 0], 4),
        ("edge after a bridge", with_bridges(), 3, &[1, 2, 0], 4),
        ("edge after an instance", with_instance(), 3, &[1, 2, 0], 4),
        ("edge after a vector", with_vector(), 3, &[1, 2, 0], 4),
    ]);
}

#[test]
fn number_4_for_places_after_the_bridges() {
    check_at_field(vec![
        ("type after a bridge", with_bridges(), 2, &[2, 2, 1], 4),
        ("type after an instance", with_instance(), 2, &[2, 2, 1], 4),
        ("type after a vector", with_vector(), 2, &[2, 2, 1], 4),
        (
            "bridge after instance",
            with_instance(),
            4,
            &[1, 0, 0, 1],
            4,
        ),
        ("bridge after a vector", with_vector(), 4, &[1, 0, 0, 1], 4),
        ("instance after vector", with_vector(), 5, &[1, 0, 0, 1], 4),
    ]);
}

#[test]
fn number_4_comes_before_those_of_the_body() {
    check_at_field(vec![
        ("4 before 5", two_inputs(), 1, &[0], 4),
        (
            "4 before 6",
            with_types(16).bridge(1, 0, 0, 1),
            2,
            &[2, 2, 1],
            4,
        ),
        ("4 before 7", two_inputs(), 1, &[0, 0], 4),
        ("4 before 7, edge", with_bridges(), 3, &[9, 9, 9], 4),
        ("4 before 8", with_bridges(), 3, &[0, 1, 0], 4),
        ("4 before 10", with_vector(), 5, &[1, 0, 0, 9], 4),
        ("4 before 12", with_vector(), 5, &[1, 9, 0, 1], 4),
    ]);
}

#[test]
fn number_5_for_lengths() {
    check_at_field(vec![
        ("no inputs", nothing(), 1, &[], 5),
        ("short inputs", nothing(), 1, &[2], 5),
        ("long inputs", nothing(), 1, &[0, 2, 0], 5),
        ("short type", two_inputs(), 2, &[2, 2], 5),
        ("long type", two_inputs(), 2, &[2, 2, 1, 0], 5),
        ("short edge", with_type(), 3, &[1, 2], 5),
        ("long edge", with_type(), 3, &[1, 2, 0, 0, 0, 0, 0], 5),
        ("short bridge", with_type(), 4, &[1, 0, 0], 5),
        ("long bridge", with_type(), 4, &[1, 0, 0, 1, 0], 5),
        ("short instance", with_type(), 5, &[1, 0], 5),
        ("odd instance", with_type(), 5, &[1, 0, 0, 1, 0], 5),
        ("long instance", with_type(), 5, &[0; 28], 5),
        ("odd long instance", with_type(), 5, &[0; 27], 5),
        ("short vector", with_instance(), 6, b"0", 5),
        ("long vector", with_instance(), 6, b"000", 5),
        ("5 before 6, type", with_types(16), 2, &[2, 2], 5),
        ("5 before 6, edge", with_edges(256), 3, &[1, 2], 5),
        (
            "5 before 6, five",
            with_edges(255),
            3,
            &[1, 2, 0, 0, 0, 0, 0],
            5,
        ),
        ("5 before 6, bridge", with_many_bridges(256), 4, &[1], 5),
        ("5 before 6, instance", with_instances(128), 5, &[1, 0], 5),
        ("5 before 6, vector", with_vectors(256), 6, b"0", 5),
        ("5 before 7, type", two_inputs(), 2, &[99, 0], 5),
        ("5 before 7, edge", with_type(), 3, &[9, 9], 5),
        ("5 before 7, bridge", with_type(), 4, &[0, 9, 9], 5),
        ("5 before 7, instance", with_type(), 5, &[0, 128, 0], 5),
        ("5 before 7, vector", with_instance(), 6, b"x", 5),
        ("5 before 8", with_type(), 3, &[0, 1], 5),
        ("5 before 10", with_type(), 5, &[1, 0, 0, 9, 0], 5),
        ("5 before 12", with_type(), 5, &[1, 9, 0, 1, 0], 5),
    ]);
}

#[test]
fn number_6_for_one_too_many() {
    check_at_field(vec![
        ("17th type", with_types(16), 2, &[2, 2, 1], 6),
        ("257th edge", with_edges(256), 3, &[1, 2, 0], 6),
        ("256th and 257th", with_edges(255), 3, &[1, 2, 0, 0], 6),
        ("254th to 257th", with_edges(253), 3, &[1, 2, 0, 0, 0, 0], 6),
        ("257th bridge", with_many_bridges(256), 4, &[1, 0, 0, 1], 6),
        ("129th instance", with_instances(128), 5, &[1, 0, 0, 1], 6),
        ("257th vector", with_vectors(256), 6, b"00", 6),
        ("6 before 7, type", with_types(16), 2, &[0, 0, 0], 6),
        ("6 before 7, edge", with_edges(256), 3, &[9, 9, 9], 6),
        ("6 before 7, pair", with_edges(255), 3, &[1, 2, 9, 0], 6),
        ("6 before 7, bridge", with_many_bridges(256), 4, &[0; 4], 6),
        ("6 before 7, instance", with_instances(128), 5, &[0; 4], 6),
        ("6 before 7, vector", with_vectors(256), 6, b"xx", 6),
        ("6 before 8", with_edges(256), 3, &[0, 1, 0], 6),
        ("6 before 8, pair", with_edges(255), 3, &[0, 1, 0, 0], 6),
        ("6 before 10", with_instances(128), 5, &[1, 0, 0, 0], 6),
        ("6 before 11", with_instances(128), 5, &[1, 2, 0, 1], 6),
        ("6 before 12", with_instances(128), 5, &[1, 9, 0, 1], 6),
    ]);
    let full = with_faults_2048().times(116, |file| file.instance(1, 0, &[1]));
    check_at_field(vec![("6 before 13", full, 5, &[1, 255, 0, 1], 6)]);
}

#[test]
fn number_7_for_ranges_before_the_instances() {
    let type_4 = || two_inputs().field(2, &[4, 3, 2]);
    check_at_field(vec![
        ("0 inputs", nothing(), 1, &[0, 0], 7),
        ("65 inputs", nothing(), 1, &[0, 65], 7),
        ("256 inputs", nothing(), 1, &[1, 0], 7),
        ("highest node 1", two_inputs(), 2, &[1, 1, 1], 7),
        ("highest node 32", two_inputs(), 2, &[32, 2, 1], 7),
        ("output 1", two_inputs(), 2, &[3, 1, 1], 7),
        ("output above highest", two_inputs(), 2, &[3, 4, 1], 7),
        ("no labels", two_inputs(), 2, &[3, 2, 0], 7),
        ("13 labels", two_inputs(), 2, &[3, 2, 13], 7),
        ("first end above", type_4(), 3, &[5, 3, 0], 7),
        ("second end above", type_4(), 3, &[3, 5, 0], 7),
        ("label k", type_4(), 3, &[1, 2, 2], 7),
        ("last label k", type_4(), 3, &[1, 2, 0, 1, 1, 2], 7),
        ("7 before 8, equal", type_4(), 3, &[5, 5, 0], 7),
        ("7 before 8, channel", type_4(), 3, &[0, 1, 2], 7),
        ("list 0", with_type(), 4, &[0, 0, 0, 1], 7),
        ("list 128", with_type(), 4, &[128, 0, 0, 1], 7),
        ("list 255", with_type(), 4, &[255, 0, 0, 1], 7),
        ("kind 2", with_type(), 4, &[1, 2, 0, 1], 7),
        ("first node 32", with_type(), 4, &[1, 0, 32, 1], 7),
        ("second node 32", with_type(), 4, &[1, 0, 1, 32], 7),
        ("equal nodes", with_type(), 4, &[1, 0, 2, 2], 7),
        ("node 32 and label", with_type(), 4, &[1, 1, 32, 0], 7),
        ("label 12", with_type(), 4, &[1, 1, 0, 12], 7),
    ]);
}

#[test]
fn number_7_for_instances_and_vectors() {
    check_at_field(vec![
        ("type 0", with_bridges(), 5, &[0, 0, 0, 1], 7),
        ("type past the last", with_bridges(), 5, &[2, 0, 0, 1], 7),
        ("no types", two_inputs(), 5, &[1, 0, 0, 1], 7),
        ("choice -2", with_bridges(), 5, &[1, 254, 0, 1], 7),
        ("choice -128", with_bridges(), 5, &[1, 128, 0, 1], 7),
        (
            "7 before 10, two",
            with_bridges(),
            5,
            &[2, 0, 0, 1, 0, 1],
            7,
        ),
        ("7 before 10", with_bridges(), 5, &[1, 254, 0, 0], 7),
        ("7 before 11", with_bridges(), 5, &[9, 2, 0, 1], 7),
        ("7 before 12", with_bridges(), 5, &[0, 9, 0, 1], 7),
        ("7 before 13", with_faults_2048(), 5, &[2, 255, 0, 1], 7),
        ("small x", with_instance(), 6, b"0x", 7),
        ("byte 47", with_instance(), 6, &[47, 48], 7),
        ("byte 50", with_instance(), 6, &[48, 50], 7),
        ("byte 0", with_instance(), 6, &[0, 1], 7),
    ]);
}

#[test]
fn numbers_4_to_7_for_pass_transistors() {
    let type_4 = || two_inputs().field(2, &[4, 3, 2]);
    let good = &[1, 2, 1, 0];
    check_at_field(vec![
        ("first field a pass", nothing(), 7, good, 4),
        ("pass without type", two_inputs(), 7, good, 4),
        ("pass after a bridge", with_bridges(), 7, good, 4),
        ("pass after an instance", with_instance(), 7, good, 4),
        ("pass after a vector", with_vector(), 7, good, 4),
        ("4 before 5, pass", with_bridges(), 7, &[1, 2, 1], 4),
        ("4 before 7, pass", with_bridges(), 7, &[9; 4], 4),
        ("empty pass", with_type(), 7, &[], 5),
        ("short pass", with_type(), 7, &[1, 2, 1], 5),
        ("long pass", with_type(), 7, &[1, 2, 1, 0, 0], 5),
        ("5 before 6, pass", with_edges(256), 7, &[1, 2, 1], 5),
        ("5 before 7, pass", with_type(), 7, &[2, 2, 9], 5),
        ("257th edge a pass", with_edges(256), 7, good, 6),
        ("6 before 7, pass", with_edges(256), 7, &[2, 2, 9, 9], 6),
        ("first end above, pass", type_4(), 7, &[5, 3, 0, 0], 7),
        ("second end above, pass", type_4(), 7, &[3, 5, 0, 0], 7),
        ("both ends above", type_4(), 7, &[5, 5, 0, 0], 7),
        ("equal ends, pass", type_4(), 7, &[4, 4, 0, 0], 7),
        ("equal rails, pass", type_4(), 7, &[0, 0, 1, 0], 7),
        ("channel 2", type_4(), 7, &[3, 4, 2, 0], 7),
        ("channel 255", type_4(), 7, &[3, 4, 255, 0], 7),
        ("label k, pass", type_4(), 7, &[3, 4, 0, 2], 7),
    ]);
    let passes = two_inputs().field(2, &[2, 2, 1]);
    let passes = passes.times(253, |file| file.field(7, good));
    check_at_field(vec![
        ("254 to 257", passes.clone(), 3, &[1, 2, 0, 0, 0, 0], 6),
        ("254 to 256", passes, 3, &[1, 9, 0, 0, 0], 7),
    ]);
}

#[test]
fn number_8_for_edge_ends() {
    let type_6 = || two_inputs().field(2, &[6, 4, 2]);
    check_at_field(vec![
        ("equal ends", type_6(), 3, &[2, 2, 0], 8),
        ("output twice", type_6(), 3, &[4, 4, 0], 8),
        ("ground twice", type_6(), 3, &[0, 0, 0], 8),
        ("supply to ground", type_6(), 3, &[1, 0, 0], 8),
        ("ground to supply", type_6(), 3, &[0, 1, 0], 8),
        ("p node to ground", type_6(), 3, &[3, 0, 0], 8),
        ("supply to n node", type_6(), 3, &[1, 5, 0], 8),
        ("p node to n node", type_6(), 3, &[6, 2, 0], 8),
    ]);
    for ends in [[1, 4], [4, 1], [3, 2], [4, 0], [0, 6], [6, 5], [4, 6]] {
        let file = type_6().field(3, &[ends[0], ends[1], 1]);
        assert_eq!(refusal(&file.bytes), Some((9, 5)), "{ends:?} is allowed");
    }
}

/// The type is judged at the first field that is no edge and has passed 4, so its
/// number comes after 2, 3 and 4 of that field and before the others.
#[test]
fn number_9_stands_after_4() {
    let after = |tag: u8, body: &[u8]| refusal(&broken_type().field(tag, body).bytes);
    let next = broken_type().end();
    let cut = broken_type().raw(&[5, 0, 9, 1]);
    assert_eq!(refusal(&cut.bytes), Some((2, next)));
    assert_eq!(after(8, &[]), Some((3, next)));
    assert_eq!(after(1, &[0, 2]), Some((4, next)));
    for tag in [2, 4, 5, 6] {
        assert_eq!(after(tag, &[]), Some((9, 5)), "9 before 5, tag {tag}");
    }
    assert_eq!(after(2, &[0, 0, 0]), Some((9, 5)), "9 before 7");
    assert_eq!(after(2, &[2, 2, 1]), Some((9, 5)));
    assert_eq!(
        after(5, &[0, 0, 0, 1]),
        Some((9, 5)),
        "9 before 7, instance"
    );
    assert_eq!(after(5, &[1, 0, 0, 9]), Some((9, 5)), "9 before 10");
    assert_eq!(after(5, &[1, 9, 0, 1]), Some((9, 5)), "9 before 12");
    assert_eq!(after(6, b"xx"), Some((9, 5)), "9 before 7, vector");
    assert_eq!(refusal(&broken_type().bytes), Some((9, 5)), "9 before 14");
    assert_eq!(after(3, &[1, 2]), Some((5, next)), "an edge judges nothing");
    assert_eq!(after(3, &[1, 2, 1]), Some((7, next)));
    assert_eq!(after(3, &[1, 0, 0]), Some((8, next)));
    assert_eq!(after(7, &[1, 2, 1]), Some((5, next)), "nor does a pass");
    assert_eq!(after(7, &[1, 2, 1, 1]), Some((7, next)));
    assert_eq!(after(7, &[1, 2, 1, 0]), Some((9, 5)), "but the end does");
}

#[test]
fn number_9_is_given_for_the_latest_type() {
    let second = with_type().field(2, &[2, 2, 1]).field(3, &[0, 2, 0]);
    let place = with_type().end();
    assert_eq!(refusal(&second.clone().bytes), Some((9, place)));
    let third = second.inverter().instance(1, 0, &[1]).vectors(&["00"]);
    assert_eq!(refusal(&third.bytes), Some((9, place)));
    let sixteenth = with_types(15).field(2, &[2, 2, 1]);
    let place = with_types(15).end();
    let seventeenth = sixteenth.field(2, &[2, 2, 1]);
    assert_eq!(refusal(&seventeenth.bytes), Some((9, place)), "9 before 6");
    let shorted = two_inputs().module(2, 2, 2, &[(1, 2, &[0, 1]), (0, 2, &[0, 1])]);
    assert_eq!(refusal(&shorted.bytes), Some((9, 5)), "joined to both");
}

#[test]
fn number_10_for_references() {
    check_at_field(vec![
        (
            "too few references",
            two_inputs().nand(),
            5,
            &[1, 0, 0, 1],
            10,
        ),
        (
            "too many references",
            with_bridges(),
            5,
            &[1, 0, 0, 1, 0, 1],
            10,
        ),
        ("reference 0", with_bridges(), 5, &[1, 0, 0, 0], 10),
        ("reference above P", with_bridges(), 5, &[1, 0, 0, 3], 10),
        ("reference 257", with_bridges(), 5, &[1, 0, 1, 1], 10),
        (
            "reference -1 in the first",
            with_bridges(),
            5,
            &[1, 0, 255, 255],
            10,
        ),
        (
            "reference -2 in the second",
            with_instance(),
            5,
            &[1, 0, 255, 254],
            10,
        ),
        ("reference -32768", with_instance(), 5, &[1, 0, 128, 0], 10),
    ]);
}

#[test]
fn numbers_11_to_13_for_lists() {
    check_at_field(vec![
        ("10 before 11", with_bridges(), 5, &[1, 2, 0, 0], 10),
        ("10 before 12", with_bridges(), 5, &[1, 9, 0, 0], 10),
        ("10 before 13", with_faults_2048(), 5, &[1, 255, 0, 0], 10),
        ("node above h", with_bridges(), 5, &[1, 2, 0, 1], 11),
        ("label not below k", with_bridges(), 5, &[1, 3, 0, 1], 11),
        (
            "node above h and a label",
            with_bridges(),
            5,
            &[1, 4, 0, 1],
            11,
        ),
        ("11 before 13", with_faults_2048(), 5, &[1, 2, 0, 1], 11),
        ("list without bridge", with_bridges(), 5, &[1, 5, 0, 1], 12),
        ("no bridges at all", with_type(), 5, &[1, 127, 0, 1], 12),
        (
            "faults above 2,048",
            with_faults_2048(),
            5,
            &[1, 255, 0, 1],
            13,
        ),
        (
            "a list above 2,048",
            with_faults_2048(),
            5,
            &[1, 1, 0, 1],
            13,
        ),
    ]);
}

#[test]
fn number_14_at_the_end() {
    let ends = [
        nothing(),
        two_inputs(),
        with_type(),
        with_bridges(),
        with_instance(),
        two_inputs().vectors(&["00"]),
        with_bridges().vectors(&["00"]),
    ];
    for file in ends {
        assert_eq!(refusal(&file.bytes), Some((14, file.end())));
    }
    assert_eq!(refusal(&with_vector().bytes), None);
}

#[test]
fn an_earlier_field_comes_first() {
    let file = two_inputs().module(2, 2, 1, &[INVERTER[0], (0, 0, &[0])]);
    let file = file.raw(&[9, 255, 255]);
    assert_eq!(refusal(&file.bytes), Some((8, 17)));
    let file = with_bridges().instance(1, 9, &[1]);
    let place = file.end() - 7;
    assert_eq!(refusal(&file.field(1, &[]).bytes), Some((12, place)));
}

#[test]
fn numbers_15_and_22_for_lent_buffers() {
    let file = with_bridges().instance(1, -1, &[1]).vectors(&["00"]);
    let refused = |number: u8, place: usize| Err(Refusal { number, place });
    let ask = |matrix: usize, classes: usize| grade(&file.bytes, matrix, classes).map(|_| ());
    assert_eq!(ask(24, 6), Ok(()));
    assert_eq!(ask(100, 100), Ok(()));
    assert_eq!(ask(23, 6), refused(15, 24));
    assert_eq!(ask(0, 0), refused(15, 24));
    assert_eq!(ask(24, 5), refused(22, 6));
    assert_eq!(ask(23, 5), refused(15, 24));
    let no_vector = with_bridges().instance(1, -1, &[1]);
    let refusal = grade(&no_vector.bytes, 0, 0).map(|_| ());
    assert_eq!(refusal, refused(14, no_vector.end()));
}
