//! One wire, one short: reports worked out by hand in which instances share wires.

mod support;

use second::builder::FileBuilder;
use second::report::report_of;
use support::Accepted;

/// A driver's output to ground, listed at the driver and again at the input that it
/// feeds. The output is 1, 0, 1, X.
#[test]
fn an_output_and_the_input_that_it_feeds() {
    let file = FileBuilder::inputs(2)
        .inverter()
        .nand()
        .bridge(1, 0, 0, 2)
        .bridge(2, 1, 0, 1)
        .instance(1, 1, &[1])
        .instance(2, 2, &[2, -1])
        .vectors(&["00", "10", "0X", "X1"]);
    let expected = "\
vectors 4 faults 2 classes 1 found 1
1 n 0 2 1 1010 2 1
2 i 0 1 1 1010 2 1
rounds 1
";
    assert_eq!(report_of(&file.bytes), expected);
}

/// The second inverter's label is the first one's output, 1, 0 and X.
#[test]
fn an_inverter_behind_another() {
    let file = FileBuilder::inputs(1)
        .inverter()
        .instance(1, -1, &[1])
        .instance(1, -1, &[-1])
        .vectors(&["0", "1", "X"]);
    let expected = "\
vectors 3 faults 12 classes 9 found 9
1 n 0 1 1 111 3 1
1 n 0 2 2 100 1 1
1 n 1 2 3 010 1 2
1 i 0 0 4 010 1 2
1 i 1 0 5 100 1 1
1 i 2 0 6 110 2 1
2 n 0 1 1 111 3 1
2 n 0 2 7 010 1 2
2 n 1 2 8 100 1 1
2 i 0 0 2 100 1 1
2 i 1 0 3 010 1 2
2 i 2 0 9 110 2 1
rounds 1
";
    assert_eq!(report_of(&file.bytes), expected);
}

/// Both inverters have the one primary input, and outputs of their own.
#[test]
fn two_inverters_on_one_input() {
    let file = FileBuilder::inputs(1)
        .inverter()
        .times(2, |file| file.instance(1, -1, &[1]))
        .vectors(&["0", "1", "X"]);
    let expected = "\
vectors 3 faults 12 classes 9 found 9
1 n 0 1 1 111 3 1
1 n 0 2 2 100 1 1
1 n 1 2 3 010 1 2
1 i 0 0 4 010 1 2
1 i 1 0 5 100 1 1
1 i 2 0 6 110 2 1
2 n 0 1 1 111 3 1
2 n 0 2 7 100 1 1
2 n 1 2 8 010 1 2
2 i 0 0 4 010 1 2
2 i 1 0 5 100 1 1
2 i 2 0 9 110 2 1
rounds 1
";
    assert_eq!(report_of(&file.bytes), expected);
}

/// Nodes 2, the outputs, and nodes 3, inside, have the same numbers and the same
/// marks in two NANDs on the same inputs, but are wires of their own.
#[test]
fn nodes_numbered_alike_in_two_instances() {
    let file = FileBuilder::inputs(2)
        .nand()
        .bridge(1, 0, 0, 3)
        .bridge(1, 0, 3, 0)
        .bridge(1, 0, 2, 3)
        .bridge(1, 0, 2, 0)
        .bridge(1, 1, 3, 1)
        .times(2, |file| file.instance(1, 1, &[1, 2]))
        .vectors(&["00", "01", "10", "11"]);
    let expected = "\
vectors 4 faults 10 classes 8 found 8
1 n 0 3 1 0010 1 3
1 n 3 0 1 0010 1 3
1 n 2 3 2 0100 1 2
1 n 2 0 3 1110 3 1
1 i 3 1 4 0111 3 2
2 n 0 3 5 0010 1 3
2 n 3 0 5 0010 1 3
2 n 2 3 6 0100 1 2
2 n 2 0 7 1110 3 1
2 i 3 1 8 0111 3 2
rounds 2
";
    assert_eq!(report_of(&file.bytes), expected);
}

/// There is one ground and one supply, whatever the types of the instances.
#[test]
fn the_rails_of_several_instances() {
    let file = FileBuilder::inputs(2)
        .inverter()
        .nand()
        .bridge(1, 0, 0, 1)
        .bridge(2, 0, 1, 0)
        .instance(1, 1, &[1])
        .instance(2, 2, &[1, -1])
        .instance(2, 1, &[2, -2])
        .instance(1, 2, &[-3])
        .vectors(&["0X", "X1"]);
    let expected = "\
vectors 2 faults 4 classes 1 found 1
1 n 0 1 1 11 2 1
2 n 1 0 1 11 2 1
3 n 0 1 1 11 2 1
4 n 1 0 1 11 2 1
rounds 1
";
    assert_eq!(report_of(&file.bytes), expected);
}

/// The driver names its bridges from either end, the NAND behind it by either of
/// two tied labels. A driver comes before what it feeds, so its row is the first.
#[test]
fn both_kinds_in_one_class() {
    let file = FileBuilder::inputs(1)
        .inverter()
        .nand()
        .bridge(1, 0, 2, 0)
        .bridge(1, 0, 1, 2)
        .bridge(1, 0, 0, 2)
        .bridge(2, 1, 1, 1)
        .bridge(2, 1, 0, 0)
        .bridge(2, 1, 0, 1)
        .bridge(2, 1, 2, 1)
        .bridge(2, 1, 2, 0)
        .instance(1, 1, &[1])
        .instance(2, 2, &[-1, -1])
        .vectors(&["0", "1"]);
    let expected = "\
vectors 2 faults 8 classes 3 found 3
1 n 2 0 1 10 1 1
1 n 1 2 2 01 1 2
1 n 0 2 1 10 1 1
2 i 1 1 2 01 1 2
2 i 0 0 1 10 1 1
2 i 0 1 1 10 1 1
2 i 2 1 3 11 2 1
2 i 2 0 3 11 2 1
rounds 2
";
    assert_eq!(report_of(&file.bytes), expected);
}

/// The NOR's output is its node 3, and its node 2 is inside. The NAND that it feeds
/// has node 2 for its output.
#[test]
fn the_output_is_the_node_that_the_type_says() {
    let file = FileBuilder::inputs(2)
        .nor()
        .nand()
        .bridge(1, 0, 0, 2)
        .bridge(1, 0, 0, 3)
        .bridge(2, 1, 0, 0)
        .bridge(2, 0, 0, 2)
        .bridge(2, 0, 0, 3)
        .instance(1, 1, &[1, 2])
        .instance(2, 2, &[-1, 1])
        .instance(2, 2, &[-2, 1])
        .vectors(&["00", "01", "10"]);
    let expected = "\
vectors 3 faults 8 classes 6 found 6
1 n 0 2 1 110 2 1
1 n 0 3 2 100 1 1
2 i 0 0 2 100 1 1
2 n 0 2 3 111 3 1
2 n 0 3 4 100 1 1
3 i 0 0 3 111 3 1
3 n 0 2 5 110 2 1
3 n 0 3 6 110 2 1
rounds 2
";
    assert_eq!(report_of(&file.bytes), expected);
}

/// Input 1 and the output of instance 1 have one number and are two wires.
#[test]
fn an_input_and_an_output_of_one_number() {
    let file = FileBuilder::inputs(1)
        .inverter()
        .nand()
        .bridge(1, 1, 0, 0)
        .bridge(1, 1, 0, 1)
        .bridge(1, 1, 3, 0)
        .bridge(1, 1, 3, 1)
        .instance(1, 0, &[1])
        .instance(2, 1, &[1, -1])
        .vectors(&["0", "1"]);
    let expected = "\
vectors 2 faults 4 classes 4 found 3
2 i 0 0 1 01 1 2
2 i 0 1 2 10 1 1
2 i 3 0 3 00 0 0
2 i 3 1 4 11 2 1
rounds 2
";
    assert_eq!(report_of(&file.bytes), expected);
}

/// A class has the number of its first row, also where that is not at the driver,
/// and a later instance that has all its shorts from others brings no number.
#[test]
fn classes_are_numbered_at_their_first_rows() {
    let file = FileBuilder::inputs(1)
        .inverter()
        .bridge(1, 1, 0, 0)
        .bridge(1, 1, 1, 0)
        .bridge(2, 0, 0, 2)
        .bridge(2, 0, 1, 2)
        .bridge(2, 0, 0, 1)
        .instance(1, 0, &[1])
        .instance(1, 1, &[-1])
        .instance(1, 2, &[-1])
        .instance(1, 1, &[-3])
        .instance(1, 1, &[-1])
        .instance(1, 2, &[1])
        .vectors(&["0", "1"]);
    let expected = "\
vectors 2 faults 12 classes 7 found 7
2 i 0 0 1 10 1 1
2 i 1 0 2 01 1 2
3 n 0 2 3 01 1 2
3 n 1 2 4 10 1 1
3 n 0 1 5 11 2 1
4 i 0 0 3 01 1 2
4 i 1 0 4 10 1 1
5 i 0 0 1 10 1 1
5 i 1 0 2 01 1 2
6 n 0 2 6 10 1 1
6 n 1 2 7 01 1 2
6 n 0 1 5 11 2 1
rounds 1
";
    assert_eq!(report_of(&file.bytes), expected);
}

/// Three inverters in a row, then two NANDs on their outputs. New in instance 1 are
/// 6 classes, in 2 and 3 each 3, in 4 and 5 each 9 of 14: not 0-1, and no rail with
/// a label.
#[test]
fn a_row_of_inverters_and_two_nands() {
    let graded = FileBuilder::inputs(1)
        .inverter()
        .nand()
        .instance(1, -1, &[1])
        .instance(1, -1, &[-1])
        .instance(1, -1, &[-2])
        .instance(2, -1, &[-1, -3])
        .instance(2, -1, &[-4, -2])
        .vectors(&["0", "1"])
        .graded();
    assert_eq!((graded.rows.len(), graded.classes), (46, 30));
}
