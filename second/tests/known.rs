//! The known results of the paper's scope page, those marked P too, and the
//! inverter example byte for byte.

mod support;

use second::builder::FileBuilder;
use second::circuit::Kind;
use second::report::{report, report_of};
use second::starts::nand_under;
use support::{answer, digits, refusal, Accepted};

/// The 42 bytes: inputs; type and its two edges; instance; vectors 0, 1, X.
const INVERTER_FILE: &str = "
    01 0002 0001
    02 0003 02 02 01
    03 0003 01 02 00
    03 0003 00 02 00
    05 0004 01 ff 0001
    06 0001 30
    06 0001 31
    06 0001 58";

const INVERTER_REPORT: &str = "\
vectors 3 faults 6 classes 6 found 6
1 n 0 1 1 111 3 1
1 n 0 2 2 100 1 1
1 n 1 2 3 010 1 2
1 i 0 0 4 010 1 2
1 i 1 0 5 100 1 1
1 i 2 0 6 110 2 1
rounds 1
";

fn bytes_from_hex(text: &str) -> Vec<u8> {
    let digits: Vec<u32> = text.chars().filter_map(|c| c.to_digit(16)).collect();
    digits
        .chunks_exact(2)
        .map(|pair| (pair[0] * 16 + pair[1]) as u8)
        .collect()
}

#[test]
fn inverter_example() {
    let bytes = bytes_from_hex(INVERTER_FILE);
    assert_eq!(bytes.len(), 42);
    assert_eq!(report_of(&bytes), INVERTER_REPORT);
}

#[test]
fn nand_bridges_under_all_settings() {
    let graded = nand_under(&["00", "01", "10", "11"]).graded();
    assert_eq!(digits(&graded, 1, Kind::Nodes, 2, 3), "0100");
    assert_eq!(digits(&graded, 1, Kind::Nodes, 0, 3), "0010");
    assert_eq!(digits(&graded, 1, Kind::Nodes, 1, 3), "0101");
}

/// A node joined to supply would mark its bridge to ground, and the other way.
#[test]
fn nand_node_3_floats_under_00() {
    let graded = nand_under(&["00"]).graded();
    assert_eq!(digits(&graded, 1, Kind::Nodes, 0, 3), "0");
    assert_eq!(digits(&graded, 1, Kind::Nodes, 1, 3), "0");
}

#[test]
fn nand_with_one_input_unknown() {
    let graded = nand_under(&["0X", "1X"]).graded();
    assert_eq!(digits(&graded, 1, Kind::Nodes, 0, 2), "10");
    assert_eq!(digits(&graded, 1, Kind::Nodes, 2, 3), "00");
}

#[test]
fn rail_bridge_is_marked_under_every_vector() {
    let every = ["00", "01", "0X", "10", "11", "1X", "X0", "X1", "XX"];
    let graded = nand_under(&every).graded();
    assert_eq!(digits(&graded, 1, Kind::Nodes, 0, 1), "111111111");
}

#[test]
fn inverter_then_nand_leaves_x_unmarked() {
    let graded = FileBuilder::inputs(1)
        .inverter()
        .nand()
        .instance(1, 0, &[1])
        .instance(2, -1, &[1, -1])
        .vectors(&["0", "1", "X"])
        .graded();
    assert_eq!(digits(&graded, 2, Kind::Nodes, 0, 2), "110");
}

/// Document 002's two formula examples, shown on a circuit: nodes 2 and 3 are the
/// inner nodes of its p network, label 3 is the one with the values 1100. A bridge
/// to ground shows where a node is at supply, a bridge to supply where it is at
/// ground, and label 3 shows its own values at the two rails.
#[test]
fn plane_examples_of_document_002() {
    let edges: &[(u8, u8, &[u8])] = &[
        (1, 2, &[0]),
        (2, 4, &[1]),
        (1, 3, &[2]),
        (3, 4, &[3]),
        (4, 5, &[0, 1]),
        (5, 0, &[2, 3]),
    ];
    let graded = FileBuilder::inputs(4)
        .module(5, 4, 4, edges)
        .instance(1, -1, &[1, 2, 3, 4])
        .vectors(&["0101", "1001", "0110", "1110"])
        .graded();
    let at_supply = |node: u8| digits(&graded, 1, Kind::Nodes, 0, node);
    let at_ground = |node: u8| digits(&graded, 1, Kind::Nodes, 1, node);
    assert_eq!((at_supply(2), at_ground(2)), ("1010".into(), "0100".into()));
    assert_eq!((at_supply(3), at_ground(3)), ("1100".into(), "0011".into()));
    assert_eq!(digits(&graded, 1, Kind::Label, 0, 3), "1100");
    assert_eq!(digits(&graded, 1, Kind::Nodes, 2, 3), "0110");
    assert_eq!(digits(&graded, 1, Kind::Label, 2, 3), "0110");
}

#[test]
fn types_that_are_not_complementary() {
    let split = FileBuilder::inputs(2)
        .module(2, 2, 2, &[(1, 2, &[0]), (0, 2, &[1])])
        .instance(1, -1, &[1, 2])
        .vectors(&["00"]);
    assert_eq!(refusal(&split.bytes), Some((9, 5)));
    let no_edges = FileBuilder::inputs(1)
        .module(2, 2, 1, &[])
        .instance(1, -1, &[1])
        .vectors(&["0"]);
    assert_eq!(refusal(&no_edges.bytes), Some((9, 5)));
}

#[test]
fn nand_with_equal_references() {
    let file = FileBuilder::inputs(1)
        .nand()
        .instance(1, -1, &[1, 1])
        .vectors(&["0", "1"]);
    let graded = file.graded();
    assert_eq!((graded.rows.len(), graded.classes), (14, 10));
}

#[test]
fn references_to_earlier_instances() {
    let two = |first: i16, second: i16| {
        let file = FileBuilder::inputs(1).inverter().instance(1, 0, &[first]);
        let second_place = file.end();
        let file = file.instance(1, 0, &[second]).vectors(&["0"]);
        (refusal(&file.bytes), second_place)
    };
    assert_eq!(two(1, -1).0, None);
    for bad in [-2, 0] {
        let (refused, place) = two(1, bad);
        assert_eq!(refused, Some((10, place)));
    }
    let (refused, place) = two(-1, 1);
    assert_eq!(refused, Some((10, place - 7)));
}

#[test]
fn shortest_files() {
    assert_eq!(report_of(&[]), "refused 14 at 0\n");
    assert_eq!(report_of(&[1]), "refused 2 at 0\n");
}

/// Bridge 0-2 of the inverter is marked where the input is 0.
#[test]
fn vectors_fill_words() {
    let with_zero_at = |place: usize, count: usize| {
        let vectors = (0..count).map(|index| if index == place { "0" } else { "1" });
        let file = FileBuilder::inputs(1).inverter().bridge(7, 0, 0, 2);
        let file = file.instance(1, 7, &[1]);
        file.vectors(&vectors.collect::<Vec<_>>()).graded().rows[0].words()
    };
    assert_eq!(with_zero_at(63, 64), [1 << 63, 0, 0, 0]);
    assert_eq!(with_zero_at(64, 65), [0, 1, 0, 0]);
    assert_eq!(with_zero_at(128, 129), [0, 0, 1, 0]);
    assert_eq!(with_zero_at(255, 256), [0, 0, 0, 1 << 63]);
    assert_eq!(with_zero_at(9, 8), [0, 0, 0, 0]);
}

/// Slips named by the paper: a branch that feeds a lower node, and classes of a
/// user list named from both ends.
#[test]
fn joining_feeds_lower_nodes() {
    let edges: &[(u8, u8, &[u8])] = &[
        (1, 3, &[0]),
        (3, 2, &[0]),
        (2, 4, &[0]),
        (4, 6, &[0]),
        (6, 5, &[0]),
        (5, 0, &[0]),
    ];
    let graded = FileBuilder::inputs(1)
        .module(6, 4, 1, edges)
        .instance(1, -1, &[1])
        .vectors(&["0", "1"])
        .graded();
    for node in [2, 3, 4] {
        assert_eq!(digits(&graded, 1, Kind::Nodes, 0, node), "10");
    }
    assert_eq!(digits(&graded, 1, Kind::Nodes, 5, 6), "00");
    assert_eq!(digits(&graded, 1, Kind::Nodes, 2, 5), "00");
    assert_eq!(digits(&graded, 1, Kind::Nodes, 1, 6), "01");
}

#[test]
fn user_list_keeps_order_and_ends() {
    let file = FileBuilder::inputs(1)
        .nand()
        .bridge(3, 0, 3, 2)
        .bridge(4, 0, 0, 1)
        .bridge(3, 1, 2, 1)
        .bridge(3, 0, 2, 3)
        .bridge(3, 1, 2, 0)
        .instance(1, 3, &[1, 1])
        .instance(1, 4, &[1, -1])
        .vectors(&["0", "1"]);
    let expected = "\
vectors 2 faults 5 classes 3 found 2
1 n 3 2 1 00 0 0
1 i 2 1 2 11 2 1
1 n 2 3 1 00 0 0
1 i 2 0 2 11 2 1
2 n 0 1 3 11 2 1
rounds 2
";
    assert_eq!(report(&answer(&file.bytes)), expected);
}

#[test]
fn no_faults_is_a_first_line_and_the_rounds() {
    let file = FileBuilder::inputs(1)
        .inverter()
        .instance(1, 0, &[1])
        .vectors(&["X", "0"]);
    let expected = "vectors 2 faults 0 classes 0 found 0\nrounds 1\n";
    assert_eq!(report(&answer(&file.bytes)), expected);
    assert!(second::grade::grade(&file.bytes, 0, 0).is_ok());
}
